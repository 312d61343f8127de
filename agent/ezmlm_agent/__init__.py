"""Mail in by LMTP and mail out by SMTP, for all lists of a host."""

VERSION = '0.1'
