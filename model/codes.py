"""Status codes, and the texts of errors."""
ECA_NORMAL, ECA_ALLOCMEM, ECA_TOLARGE, ECA_BADTYPE, ECA_INTERNAL = 1, 48, 72, 114, 142
ECA_GETFAIL, ECA_PUTFAIL, ECA_BADCOUNT, ECA_BADMASK = 152, 160, 176, 330
ECA_NORDACCESS, ECA_NOWTACCESS, ECA_BADCHID = 368, 376, 410
TEXTS = {
    ECA_ALLOCMEM: b"limit reached",
    ECA_TOLARGE: b"value too large",
    ECA_BADTYPE: b"type not served",
    ECA_INTERNAL: b"request not understood",
    ECA_BADCOUNT: b"bad element count",
    ECA_BADMASK: b"bad event mask",
    ECA_NOWTACCESS: b"no write access",
    ECA_BADCHID: b"unknown channel",
}
