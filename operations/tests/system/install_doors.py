"""List changes that the site of nginx refuses, for the tests of one source and of a collection."""

# Lines of a group, sent by a page of another host.
GROUP = b"put csrf 6869 text/html\ndelete kept\n"
# Headers with which a browser marks the request of another host's page.
STRANGERS = [{"Origin": "https://evil.example"}, {"Origin": "null"}, {"Sec-Fetch-Site": "cross-site"},
             {"Sec-Fetch-Site": "same-site"}, {"Sec-Fetch-Site": "another word"},
             {"Origin": "https://evil.example", "Sec-Fetch-Site": "same-origin"}]
CONDITIONS = [{"If-Match": '"a"'}, {"If-Match": "*"}, {"If-None-Match": "*"}, {"If-None-Match": '"a"'},
              {"If-Unmodified-Since": "Tue, 29 Feb 2000 00:00:00 GMT"}]
# The limit of concurrent bodies per visitor.
PASSED = 4
