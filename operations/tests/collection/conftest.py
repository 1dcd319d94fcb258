"""Add the folders of programs for system administrators, as nginx, to PATH."""
import os

os.environ["PATH"] += ":/usr/sbin:/sbin"
