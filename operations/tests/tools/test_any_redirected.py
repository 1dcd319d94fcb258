"""Test redirects of lists and resources of other software: a few within allowed hosts are followed, others refused."""
import pathlib

import pytest

from operations.tests.harness.source import FIRST
from operations.tests.tools.any_mirrored import FILES, WHOLE, holds, mirrored, place
from operations.tests.tools.any_values import at
from operations.tests.tools.static_source import Static
from ropepeach.http.client import Fields, Response
from ropepeach.http.transfers import Transfers
from ropepeach.resync.addresses import Hosts
from ropepeach.resync.asking import Asking
from ropepeach.resync.lists import Unheld

pytestmark = pytest.mark.usefixtures("room")


def redirected(site: Static, path: str, to: str) -> None:
    """Redirect a path, and serve its body at the target."""
    if to.startswith("/") and path in site.files:
        site.files[to] = site.files.pop(path)
    site.fields[path] = [("Location", to)]


@pytest.mark.parametrize("status", [301, 302, 303, 307, 308])
def test_redirects_within_a_host_are_followed(site: Static, status: int) -> None:
    """The mirror follows redirects of lists and resources. The listed address decides the path of a file."""
    site.redirect = status
    site.hold(WHOLE, FILES)
    for path in ("/.well-known/resourcesync", "/rs/resourcelist.xml", "/data/a.txt", "/data/d"):
        redirected(site, path, path + ".there")
    mirrored(site, says="exact, as listed at " + FIRST)
    holds(site, WHOLE, FILES)
    mirrored(site, says="incremental: fetched 0 ")


# (test_discovery.py has links relative to the target of a redirect)
@pytest.mark.parametrize(("to", "says"), [
    pytest.param("/data/a.txt", "redirects more than 5 times", id="loop"),
    pytest.param("http://{other}/a", "--host {other} allows it", id="another host"),
    pytest.param("file:///etc/passwd", "not to this place", id="file"),
    pytest.param("", "redirects more than 5 times", id="empty"),
    pytest.param("http://127.0.0.1:1/", "allows it", id="another port"),
    pytest.param("http://u@{other}/a", "not to this place", id="user"),
    pytest.param("//", "redirects more than 5 times", id="no host"),
    pytest.param("/\x1b[2J", "not to this place", id="terminal")])
def test_other_redirects_are_refused_and_the_rest_is_fetched(site: Static, to: str, says: str) -> None:
    """The mirror sends no request to the other host."""
    with Static() as other:
        name = other.base.removeprefix("http://")
        site.hold(WHOLE, FILES)
        site.fields["/data/a.txt"] = [("Location", to.replace("{other}", name))]
        mirrored(site, status=1, says=says.replace("{other}", name))
        assert other.requests == []
    assert len([path for path in pathlib.Path("m").rglob("*") if path.is_file() and path.name[0] != "#"]) == 3


def test_host_allows_a_redirect_to_another_host(site: Static) -> None:
    with Static() as other:
        other.files["/a"] = b"one"
        site.hold(WHOLE, FILES)
        site.fields["/data/a.txt"] = [("Location", f"{other.base}/a")]
        mirrored(site, "--host", other.base.removeprefix("http://"), says="fetched 4 ")
    assert pathlib.Path("m", place(site, "/data/a.txt")).read_bytes() == b"one"


@pytest.mark.parametrize(("steps", "status"), [(5, 0), (6, 1)])
def test_five_steps_are_followed(site: Static, steps: int, status: int) -> None:
    site.hold(WHOLE, FILES)
    for step in range(steps):
        site.fields[f"/data/{step or 'a.txt'}"] = [("Location", f"/data/{step + 1}")]
    site.files[f"/data/{steps}"] = b"one"
    mirrored(site, status=status)


def test_a_description_that_redirects_to_another_host_is_refused(site: Static) -> None:
    with Static() as other:
        site.hold(WHOLE, FILES)
        site.fields["/.well-known/resourcesync"] = [("Location", f"{other.base}/x")]
        mirrored(site, status=1, says=f"--host {other.base.removeprefix('http://')} allows it")


class Answering:
    """A client of a host that redirects from https to http."""

    longest = 1_000

    def ask(self, method: str, target: str, limit: int, more: object) -> Response:
        """Return a redirect."""
        return Response(302, "Found", Fields([b"Location: http://a.example/"]))


def test_a_redirect_from_https_to_http_is_refused() -> None:
    """The mirror refuses such a redirect to an allowed host too."""
    asking = Asking(Hosts(["a.example"]), lambda origin: Answering(),  # type: ignore[arg-type,return-value]
                    Transfers("http://a.example"))
    with pytest.raises(Unheld, match="not to this place"):
        asking.ask(at("https://a.example/"), 10, {})
