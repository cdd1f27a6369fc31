//! The bodies of RFC 8601's Appendix B, and the report of each.

pub const APPENDIX_B: [(&str, &str); 9] = [
    // B.2
    (" example.org 1; none", "id\texample.org\nnone\n"),
    // B.3
    (
        " example.com;\r\n          spf=pass smtp.mailfrom=example.net",
        "id\texample.com\n\
         m\tspf\tpass\n\
         p\tsmtp\tmailfrom\tt\texample.net\n",
    ),
    // B.4
    (
        " example.com;\r\n\
         \x20         auth=pass (cram-md5) smtp.auth=sender@example.net;\r\n\
         \x20         spf=pass smtp.mailfrom=example.net",
        "id\texample.com\n\
         m\tauth\tpass\n\
         p\tsmtp\tauth\tm\tsender@example.net\n\
         m\tspf\tpass\n\
         p\tsmtp\tmailfrom\tt\texample.net\n",
    ),
    (
        " example.com; iprev=pass\r\n          policy.iprev=192.0.2.200",
        "id\texample.com\n\
         m\tiprev\tpass\n\
         p\tpolicy\tiprev\tt\t192.0.2.200\n",
    ),
    // B.5
    (
        " example.com;\r\n          dkim=pass (good signature) header.d=example.com",
        "id\texample.com\n\
         m\tdkim\tpass\n\
         p\theader\td\tt\texample.com\n",
    ),
    (
        " example.com;\r\n\
         \x20         auth=pass (cram-md5) smtp.auth=sender@example.com;\r\n\
         \x20         spf=fail smtp.mailfrom=example.com",
        "id\texample.com\n\
         m\tauth\tpass\n\
         p\tsmtp\tauth\tm\tsender@example.com\n\
         m\tspf\tfail\n\
         p\tsmtp\tmailfrom\tt\texample.com\n",
    ),
    // B.6
    (
        " example.com;\r\n\
         \x20     dkim=pass reason=\"good signature\"\r\n\
         \x20       header.i=@mail-router.example.net;\r\n\
         \x20     dkim=fail reason=\"bad signature\"\r\n\
         \x20       header.i=@newyork.example.com",
        "id\texample.com\n\
         m\tdkim\tpass\n\
         r\tgood%20signature\n\
         p\theader\ti\ta\t@mail-router.example.net\n\
         m\tdkim\tfail\n\
         r\tbad%20signature\n\
         p\theader\ti\ta\t@newyork.example.com\n",
    ),
    (
        " example.net;\r\n      dkim=pass (good signature) header.i=@newyork.example.com",
        "id\texample.net\n\
         m\tdkim\tpass\n\
         p\theader\ti\ta\t@newyork.example.com\n",
    ),
    // B.7
    (
        " foo.example.net (foobar) 1 (baz);\r\n\
         \x20   dkim (Because I like it) / 1 (One yay) = (wait for it) fail\r\n\
         \x20     policy (A dot can go here) . (like that) expired\r\n\
         \x20     (this surprised me) = (as I wasn't expecting it) 1362471462",
        "id\tfoo.example.net\n\
         m\tdkim\tfail\n\
         p\tpolicy\texpired\tt\t1362471462\n",
    ),
];
