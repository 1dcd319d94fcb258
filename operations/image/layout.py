"""The image: an OCI layout of one layer, made by umoci, and an archive of it for podman."""
from __future__ import annotations

import datetime
import shutil
from pathlib import Path

from operations.image.root import done

ENTRYPOINT = ("/usr/bin/tini", "--", "/usr/bin/rs_source")
COMMAND = ("serve", "/data/source.disk", "8080", "1000000000")


def settings(version: str, user: str) -> list[str]:
    """Return the settings of the image's containers: the user, the program and the single volume."""
    labels = {"title": "Ropepeach", "version": version, "licenses": "MIT OR Apache-2.0",
              "description": "a proved source for the ResourceSync Framework"}
    words = ["--config.user", user, "--config.volume", "/data", "--config.workingdir", "/data", "--config.exposedports",
             "8080/tcp",
             "--config.env", "PATH=/usr/bin:/bin", "--config.env", "PYTHONDONTWRITEBYTECODE=1", "--os", "linux",
             "--architecture", "amd64"]
    words += [word for name, value in labels.items()
              for word in ("--config.label", f"org.opencontainers.image.{name}={value}")]
    words += [word for part in ENTRYPOINT for word in ("--config.entrypoint", part)]
    return words + [word for part in COMMAND for word in ("--config.cmd", part)]


def layout(root: Path, to: Path, version: str, user: str, moment: int) -> Path:
    """Make the layout from the files of an image."""
    shutil.rmtree(to, ignore_errors=True)
    when, image = datetime.datetime.fromtimestamp(
        moment, datetime.timezone.utc).strftime("%Y-%m-%dT%H:%M:%SZ"), f"{to}:{version}"
    done("umoci", "init", "--layout", to)
    done("umoci", "new", "--image", image)
    done("umoci", "insert", "--image", image, "--history.created", when, "--history.created_by", "ropepeach", root, "/")
    done("umoci", "config", "--image", image, "--created", when, "--no-history", *settings(version, user))
    done("umoci", "gc", "--layout", to)
    return to


def archive(made: Path, to: Path, moment: int) -> Path:
    """Make one file from a layout, as `podman load` takes it."""
    done("tar", "--create", "--sort=name", f"--mtime=@{moment}", "--owner=0", "--group=0", "--numeric-owner",
         "--mode=u=rwX,go=rX",
         "--format=ustar", "--file", to, "--directory", made, ".")
    return to
