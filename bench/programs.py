"""The splitter and the Rust twin, both built for release."""
import os, subprocess

root = os.path.dirname(os.path.dirname(os.path.abspath(__file__)))
splitter = os.path.join(root, "target/bin/splitter")
twin = os.path.join(root, "twin/target/release/twin")


def build():
    """Builds both, if need be."""
    if not os.path.exists(splitter):
        subprocess.run([os.path.join(root, "tools/build"), "splitter"], check=True, stdout=subprocess.DEVNULL)
    subprocess.run(["cargo", "build", "--release", "--offline", "--quiet", "--manifest-path", os.path.join(root, "twin/Cargo.toml")], check=True)
