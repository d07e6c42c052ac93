"""The proxy in front of `mrep`: its page is README.md, beside `mrep-proxy`."""
