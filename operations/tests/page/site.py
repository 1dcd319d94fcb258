"""Run nginx with the site of operations/install/ and its page in front of a source."""
import contextlib
import os
import pathlib
import pwd
import re
import shutil
import subprocess
import tempfile
from collections.abc import Callable, Iterator

from operations.tests.system import install_looks, install_shared
from tests.program import ROOT
from tests.served_source import free_port

PAGE = ROOT / "operations/install/site"
# The installed path of the page, which the site serves.
INSTALLED = "/usr/local/share/ropepeach/site"
# The site's path for the operator's file, and its path here.
SETTINGS, ABOUT = "root /etc/ropepeach;", "settings/source.json"
SECONDS = 20


def configured(room: str, port: int, behind: int, change: Callable[[str], str], certificate: str) -> str:
    """Return nginx settings for the site on a loopback port, with the page of a folder and a source on another port.
    Without a certificate file, which has the key too, there is no TLS.
    """
    folders = re.findall(r"--http-([a-z-]+)-temp-path",
                         subprocess.run(["nginx", "-V"], capture_output=True, text=True,
                                        timeout=SECONDS).stderr)
    # (if the master runs as root, its workers run as a user that cannot write here)
    user = f"user {pwd.getpwuid(os.getuid()).pw_name};" if os.getuid() == 0 else ""
    site = install_looks.site_on(room, port, behind)
    site = re.sub(r"/etc/ssl/\w+/source\.example\.org\.\w+", certificate,
                  site) if certificate else install_looks.without_tls(site)
    if site.count(INSTALLED) != 1:
        raise ValueError(f"the site has {INSTALLED} {site.count(INSTALLED)} times")
    if site.count(SETTINGS) != 1:
        raise ValueError(f"the site has {SETTINGS} {site.count(SETTINGS)} times")
    site = site.replace(SETTINGS, f"root {room}/settings;")
    # (a source changes often during a test, so nginx caches no list here)
    site = re.sub(r"proxy_cache_valid\s[^;]*;", "", change(site.replace(INSTALLED, f"{room}/page")))
    places = "".join(f"{name.replace('-', '_')}_temp_path {room}/{name};\n" for name in folders)
    main = f"daemon off; worker_processes 1; {user} pid {room}/pid; error_log {room}/errors;\nevents {{}}\n"
    return f"{main}http {{\naccess_log off;\n{places}{site}}}\n"


@contextlib.contextmanager
def site(folder: pathlib.Path, behind: int, port: int = 0,
         change: Callable[[str], str] = lambda settings: settings,
         edit: Callable[[pathlib.Path], None] = lambda page: None, certificate: str = "") -> Iterator[int]:
    """Run nginx in front of a source on port `behind`; return its port. `change` changes settings, `edit` the page."""
    port = port or free_port()
    # (a port may be reused once it is free)
    room = pathlib.Path(tempfile.mkdtemp(prefix="site-", dir=folder))
    shutil.copytree(PAGE, room / "page")
    (room / ABOUT).parent.mkdir()
    edit(room / "page")
    config = room / "nginx.conf"
    config.write_text(configured(str(room), port, behind, change, certificate))
    with subprocess.Popen(["nginx", "-p", room, "-e", room / "errors", "-c", config]) as nginx:
        try:
            install_shared.wait_for(port, nginx)
            yield port
        finally:
            nginx.terminate()
            with contextlib.suppress(subprocess.TimeoutExpired):
                nginx.wait(SECONDS)
            nginx.kill()
