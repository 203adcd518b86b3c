#!/usr/bin/env python3
"""Makes a folder of crates one that cargo builds from by path.

Usage: stubs.py FOLDER

Cargo wants to find optional dependencies too where a feature names them
(`log?/std`), though it does not build them. Each that is lacking gets a crate
without code, of the least version and with the features that are asked for.
Then each manifest says where in the folder its dependencies are, and jiff has
a name without its version. No other file is changed.
"""

import json
import os
import re
import subprocess
import sys


def manifest(crate):
    """What cargo reads in a crate's Cargo.toml."""
    command = ["cargo", "metadata", "--offline", "--no-deps", "--format-version", "1"]
    told = subprocess.run(command, cwd=crate, check=True, stdout=subprocess.PIPE).stdout
    return json.loads(told)["packages"][0]


def least(requirement):
    """The first version in a requirement, as three numbers: (0, 3, 0) in `>=0.3, <2`."""
    numbers = re.search(r"[0-9.]+", requirement).group().split(".")
    return tuple(int(number) for number in (numbers + ["0", "0"])[:3])


def asked_features(package, name):
    """Features of `name` that a feature of the package names: `name?/feature`."""
    parts = [part for parts in package["features"].values() for part in parts]
    pairs = [re.split(r"\??/", part) for part in parts if "/" in part]
    return {feature for crate, feature in pairs if crate == name}


def write_stub(folder, name, version, features):
    crate = os.path.join(folder, name)
    os.makedirs(os.path.join(crate, "src"))
    with open(os.path.join(crate, "Cargo.toml"), "w") as file:
        told = ".".join(str(number) for number in version)
        file.write(f'[package]\nname = "{name}"\nversion = "{told}"\nedition = "2021"\n\n[features]\n')
        file.writelines(f"{feature} = []\n" for feature in sorted(features))
    open(os.path.join(crate, "src", "lib.rs"), "w").close()


def write_paths(path, places):
    """Puts the place of each dependency into its section of a manifest."""
    with open(path) as file:
        sections = re.split(r"(?m)^(?=\[)", file.read())
    with open(path, "w") as file:
        for section in sections:
            named = re.match(r"\[(?:target\..*\.)?(?:build-|dev-)?dependencies\.([\w-]+)\]\n", section)
            package = re.search(r'(?m)^package = "(.*)"$', section)
            name = package.group(1) if package else named and named.group(1)
            if named and name in places:
                section = f'{named.group()}path = "../{places[name]}"\n{section[named.end():]}'
            file.write(section)


def main(folder):
    packages = [manifest(os.path.join(folder, crate)) for crate in sorted(os.listdir(folder))]
    present = {package["name"] for package in packages}
    lacking = {}
    for package in packages:
        for dependency in package["dependencies"]:
            name = dependency["name"]
            if dependency["kind"] == "dev" or name in present:
                continue
            version, features = lacking.get(name, ((0, 0, 0), set()))
            features |= asked_features(package, name) | set(dependency["features"])
            lacking[name] = max(version, least(dependency["req"])), features
    for name, (version, features) in lacking.items():
        write_stub(folder, name, version, features)
    places = {package["name"]: os.path.basename(os.path.dirname(package["manifest_path"])) for package in packages}
    places.update({name: name for name in lacking})
    for crate in places.values():
        write_paths(os.path.join(folder, crate, "Cargo.toml"), places)
    os.symlink(places["jiff"], os.path.join(folder, "jiff"))


if __name__ == "__main__":
    if len(sys.argv) != 2:
        sys.exit("usage: stubs.py FOLDER")
    main(sys.argv[1])
