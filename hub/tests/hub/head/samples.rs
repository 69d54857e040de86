//! Heads as servers in use send them: written after the manner of these servers, not captured.

use super::{answer, redirect, refused};

/// A head's lines, each ended by CRLF, and the empty line.
fn sent(lines: &str) -> String {
    let lines: Vec<&str> = lines.lines().map(str::trim_start).filter(|line| !line.is_empty()).collect();
    lines.join("\r\n") + "\r\n\r\n"
}

#[test]
fn nginx_moves_permanently_without_the_header() {
    let head = sent(
        "HTTP/1.1 301 Moved Permanently
        Server: nginx/1.24.0 (Ubuntu)
        Date: Tue, 14 May 2024 09:21:07 GMT
        Content-Type: text/html
        Content-Length: 178
        Connection: keep-alive
        Location: https://www.example.com/facets.json
        Strict-Transport-Security: max-age=31536000; includeSubDomains; preload",
    );
    redirect(head, 301, false, "https://www.example.com/facets.json");
}

#[test]
fn nginx_answers_with_the_right_type() {
    let head = sent(
        "HTTP/1.1 200 OK
        Server: nginx
        Date: Tue, 14 May 2024 09:21:08 GMT
        Content-Type: application/fido.trusted-apps+json
        Content-Length: 411
        Last-Modified: Mon, 18 Mar 2024 15:02:44 GMT
        Connection: keep-alive
        Vary: Accept-Encoding
        ETag: \"65f856a4-19b\"
        Expires: Tue, 14 May 2024 10:21:08 GMT
        Cache-Control: max-age=3600
        Cache-Control: public
        Accept-Ranges: bytes",
    );
    answer(head, 200, true);
}

#[test]
fn nginx_has_nothing_new() {
    // 304 is from 300 to 399, and there is no Location.
    let head = sent(
        "HTTP/1.1 304 Not Modified
        Server: nginx/1.18.0
        Date: Tue, 14 May 2024 09:25:40 GMT
        Last-Modified: Mon, 18 Mar 2024 15:02:44 GMT
        Connection: keep-alive
        ETag: \"65f856a4-19b\"",
    );
    refused(head);
}

#[test]
fn apache_redirects_with_the_header() {
    let head = sent(
        "HTTP/1.1 302 Found
        Date: Tue, 14 May 2024 09:21:07 GMT
        Server: Apache/2.4.59 (Debian)
        Strict-Transport-Security: max-age=63072000; includeSubDomains
        FIDO-AppID-Redirect-Authorized: true
        Location: https://login.example.com/.well-known/facets.json
        Content-Length: 309
        Keep-Alive: timeout=5, max=100
        Connection: Keep-Alive
        Content-Type: text/html; charset=iso-8859-1",
    );
    redirect(head, 302, true, "https://login.example.com/.well-known/facets.json");
}

#[test]
fn tomcat_sends_no_reason() {
    let head = sent(
        "HTTP/1.1 404 ~
        Content-Type: text/html;charset=utf-8
        Content-Language: en
        Content-Length: 682
        Date: Tue, 14 May 2024 09:21:07 GMT
        Keep-Alive: timeout=20
        Connection: keep-alive",
    );
    // The blank behind the status stands at the line's end.
    let head = head.replacen(" ~", " ", 1);
    assert!(head.starts_with("HTTP/1.1 404 \r\n"));
    answer(&head, 404, false);
    // Without it, as some embedded servers send it, the line is no status line.
    refused(head.replacen("404 ", "404", 1));
}

#[test]
fn cloudflare_answers_with_parameters() {
    let head = sent(
        r#"HTTP/1.1 200 OK
        Date: Tue, 14 May 2024 09:21:07 GMT
        Content-Type: application/fido.trusted-apps+json; charset=utf-8
        Transfer-Encoding: chunked
        Connection: keep-alive
        access-control-allow-origin: *
        Cache-Control: public, max-age=0, must-revalidate
        referrer-policy: strict-origin-when-cross-origin
        x-content-type-options: nosniff
        Report-To: {"endpoints":[{"url":"https:\/\/a.nel.cloudflare.com\/report\/v4?s=fV1%2B"}],"group":"cf-nel","max_age":604800}
        NEL: {"success_fraction":0,"report_to":"cf-nel","max_age":604800}
        Vary: Accept-Encoding
        CF-Cache-Status: DYNAMIC
        Set-Cookie: __cf_bm=Xo2.3xT-1715678467-1.0.1.1-aZ; path=/; expires=Tue, 14-May-24 09:51:07 GMT; HttpOnly; Secure; SameSite=None
        Server: cloudflare
        CF-RAY: 8839f2a1bd2c9a0b-FRA
        alt-svc: h3=":443"; ma=86400"#,
    );
    answer(head, 200, true);
}

#[test]
fn google_answers_from_its_cache() {
    let head = sent(
        r#"HTTP/1.1 200 OK
        Accept-Ranges: bytes
        Vary: Accept-Encoding, Origin
        Content-Type: application/fido.trusted-apps+json
        Cross-Origin-Resource-Policy: cross-origin
        Cross-Origin-Opener-Policy-Report-Only: same-origin; report-to="static-on-bigtable"
        Report-To: {"group":"static-on-bigtable","max_age":2592000,"endpoints":[{"url":"https://csp.withgoogle.com/csp/report-to/static-on-bigtable"}]}
        Content-Length: 160
        X-Content-Type-Options: nosniff
        Server: sffe
        X-XSS-Protection: 0
        Date: Tue, 14 May 2024 08:40:59 GMT
        Expires: Tue, 14 May 2024 09:30:59 GMT
        Cache-Control: public, max-age=3000
        Age: 2410
        Last-Modified: Wed, 09 Sep 2020 14:15:00 GMT
        Alt-Svc: h3=":443"; ma=2592000,h3-29=":443"; ma=2592000"#,
    );
    answer(head, 200, true);
}

#[test]
fn google_redirects_elsewhere() {
    let head = sent(
        r#"HTTP/1.1 301 Moved Permanently
        Location: https://www.google.com/
        Content-Type: text/html; charset=UTF-8
        Content-Security-Policy-Report-Only: object-src 'none';base-uri 'self';script-src 'nonce-7dC' 'strict-dynamic' 'report-sample' https: http:;report-uri https://csp.withgoogle.com/csp/gws/other-hp
        Date: Tue, 14 May 2024 09:21:07 GMT
        Expires: Thu, 13 Jun 2024 09:21:07 GMT
        Cache-Control: public, max-age=2592000
        Server: gws
        Content-Length: 220
        X-XSS-Protection: 0
        X-Frame-Options: SAMEORIGIN"#,
    );
    redirect(head, 301, false, "https://www.google.com/");
}

#[test]
fn amazon_s3_guesses_the_type() {
    let head = sent(
        r#"HTTP/1.1 200 OK
        x-amz-id-2: 1q6bJkLk0D8Yk/0o2mX2n+0s9m1uQvF7l3HqfXl2F8x3cZs1k5m4g7a1V5h2b3c4d5e6f7g8h9i=
        x-amz-request-id: 6ZQ4T3V8N1K2M5P7
        Date: Tue, 14 May 2024 09:21:08 GMT
        Last-Modified: Mon, 18 Mar 2024 15:02:44 GMT
        ETag: "9b2cf535f27731c974343645a3985328"
        x-amz-server-side-encryption: AES256
        x-amz-version-id: null
        Accept-Ranges: bytes
        Content-Type: binary/octet-stream
        Content-Length: 411
        Server: AmazonS3"#,
    );
    answer(head, 200, false);
}

#[test]
fn amazon_cloudfront_redirects_to_https() {
    let head = sent(
        "HTTP/1.1 301 Moved Permanently
        Server: CloudFront
        Date: Tue, 14 May 2024 09:21:07 GMT
        Content-Type: text/html
        Content-Length: 167
        Connection: keep-alive
        Location: https://d111111abcdef8.cloudfront.net/facets.json?v=2&lang=en
        X-Cache: Redirect from cloudfront
        Via: 1.1 3b5e5f2ad1d0a3c9ab6d0c6a4bd3cbb2.cloudfront.net (CloudFront)
        X-Amz-Cf-Pop: FRA60-P4
        X-Amz-Cf-Id: Zb9eG5m7N-2dKq8r4w1vUe6cT0yHs3aJ5lX9pBfQ7iRkLoMnWgDzVA==",
    );
    redirect(head, 301, false, "https://d111111abcdef8.cloudfront.net/facets.json?v=2&lang=en");
}

#[test]
fn iis_redirects_to_a_path() {
    // A Location is copied as it stands; the decision refuses it later.
    let head = sent(
        "HTTP/1.1 302 Found
        Cache-Control: private
        Content-Type: text/html; charset=utf-8
        Location: /Account/Login?ReturnUrl=%2ffacets.json
        Server: Microsoft-IIS/10.0
        X-AspNetMvc-Version: 5.2
        X-AspNet-Version: 4.0.30319
        Set-Cookie: ASP.NET_SessionId=k2m0yvq1lxw3z4rt5pnb6dsc; path=/; HttpOnly; SameSite=Lax
        X-Powered-By: ASP.NET
        Date: Tue, 14 May 2024 09:21:06 GMT
        Content-Length: 163",
    );
    redirect(head, 302, false, "/Account/Login?ReturnUrl=%2ffacets.json");
}

#[test]
fn iis_answers_with_the_right_type() {
    let head = sent(
        r#"HTTP/1.1 200 OK
        Content-Type: application/fido.trusted-apps+json
        Last-Modified: Mon, 18 Mar 2024 15:02:44 GMT
        Accept-Ranges: bytes
        ETag: "a8f5d1b94579da1:0"
        Server: Microsoft-IIS/10.0
        X-Powered-By: ASP.NET
        Date: Tue, 14 May 2024 09:21:06 GMT
        Content-Length: 411"#,
    );
    answer(head, 200, true);
}

#[test]
fn github_pages_answers_with_json() {
    let head = sent(
        r#"HTTP/1.1 200 OK
        Connection: keep-alive
        Content-Length: 411
        Server: GitHub.com
        Content-Type: application/json; charset=utf-8
        permissions-policy: interest-cohort=()
        Last-Modified: Mon, 18 Mar 2024 15:02:44 GMT
        Access-Control-Allow-Origin: *
        Strict-Transport-Security: max-age=31556952
        ETag: "65f856a4-19b"
        expires: Tue, 14 May 2024 09:31:07 GMT
        Cache-Control: max-age=600
        x-proxy-cache: MISS
        X-GitHub-Request-Id: 5C3A:1F2B:3D4E5F:6A7B8C:66432E03
        Accept-Ranges: bytes
        Date: Tue, 14 May 2024 09:21:07 GMT
        Via: 1.1 varnish
        Age: 0
        X-Served-By: cache-fra-eddf8230071-FRA
        X-Cache: MISS
        X-Cache-Hits: 0
        X-Timer: S1715678468.751389,VS0,VE104
        Vary: Accept-Encoding
        X-Fastly-Request-ID: 2fd4e1c67a2d28fced849ee1bb76e7391b93eb12"#,
    );
    answer(head, 200, false);
}

#[test]
fn github_sets_cookies_and_a_policy() {
    let head = sent(
        r#"HTTP/1.1 302 Found
        Server: GitHub.com
        Date: Tue, 14 May 2024 09:21:07 GMT
        Content-Type: text/html; charset=utf-8
        Content-Length: 0
        Vary: X-PJAX, X-PJAX-Container, Turbo-Visit, Turbo-Frame, Accept-Encoding, Accept, X-Requested-With
        Location: https://raw.githubusercontent.com/acme/keys/main/facets.json
        Cache-Control: no-cache
        Strict-Transport-Security: max-age=31536000; includeSubdomains; preload
        X-Frame-Options: deny
        X-Content-Type-Options: nosniff
        X-XSS-Protection: 0
        Referrer-Policy: no-referrer-when-downgrade
        Content-Security-Policy: default-src 'none'; base-uri 'self'; child-src github.com/assets-cdn/worker/ gist.github.com/assets-cdn/worker/; connect-src 'self' uploads.github.com www.githubstatus.com api.github.com; font-src github.githubassets.com; form-action 'self' github.com gist.github.com; frame-ancestors 'none'; img-src 'self' data: blob: github.githubassets.com; script-src github.githubassets.com; style-src 'unsafe-inline' github.githubassets.com; upgrade-insecure-requests
        Set-Cookie: _gh_sess=Zm9v%2FYmFy--aBcDeF--gHiJkL%3D%3D; path=/; secure; HttpOnly; SameSite=Lax
        Set-Cookie: _octo=GH1.1.1234567890.1715678467; expires=Wed, 14 May 2025 09:21:07 GMT; domain=.github.com; path=/; secure; SameSite=Lax
        Set-Cookie: logged_in=no; expires=Wed, 14 May 2025 09:21:07 GMT; domain=.github.com; path=/; HttpOnly; secure; SameSite=Lax
        X-GitHub-Request-Id: D1E2:3F4A:5B6C7D:8E9FA0:66432E03"#,
    );
    redirect(head, 302, false, "https://raw.githubusercontent.com/acme/keys/main/facets.json");
}

#[test]
fn express_redirects_temporarily() {
    let head = sent(
        "HTTP/1.1 307 Temporary Redirect
        X-Powered-By: Express
        FIDO-AppID-Redirect-Authorized: true
        Location: https://keys.example.net:8443/facets
        Vary: Accept, Accept-Encoding
        Content-Type: text/plain; charset=utf-8
        Content-Length: 70
        Date: Tue, 14 May 2024 09:21:07 GMT
        Connection: keep-alive
        Keep-Alive: timeout=5",
    );
    redirect(head, 307, true, "https://keys.example.net:8443/facets");
}

#[test]
fn envoy_writes_names_in_lower_case() {
    let head = sent(
        "HTTP/1.1 308 Permanent Redirect
        location: https://edge.example.net/facets
        fido-appid-redirect-authorized: true
        date: Tue, 14 May 2024 09:21:07 GMT
        server: envoy
        x-envoy-upstream-service-time: 12
        content-length: 0",
    );
    redirect(head, 308, true, "https://edge.example.net/facets");
}

#[test]
fn squid_reports_a_failure_by_http_1_0() {
    let head = sent(
        "HTTP/1.0 503 Service Unavailable
        Server: squid/5.7
        Mime-Version: 1.0
        Date: Tue, 14 May 2024 09:21:07 GMT
        Content-Type: text/html;charset=utf-8
        Content-Length: 3516
        X-Squid-Error: ERR_DNS_FAIL 0
        Vary: Accept-Language
        Content-Language: en
        X-Cache: MISS from proxy.example
        Via: 1.1 proxy.example (squid/5.7)
        Connection: keep-alive",
    );
    answer(head, 503, false);
}

#[test]
fn a_proxy_adds_a_second_location() {
    let head = sent(
        "HTTP/1.1 302 Found
        Server: Apache
        Location: http://backend.internal/facets
        FIDO-AppID-Redirect-Authorized: true
        Content-Length: 0
        Location: https://www.example.com/facets",
    );
    refused(head);
}

#[test]
fn early_hints_are_an_answer() {
    let head = sent(
        "HTTP/1.1 103 Early Hints
        Link: </style.css>; rel=preload; as=style",
    );
    answer(head, 103, false);
}
