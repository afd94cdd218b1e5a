#!/usr/bin/env python3
"""Writes an SPDX 2.3 document that lists the parts of the program and the C library.

    sbom.py VERSION COMMIT SECONDS KIT_FOLDER KIT PROGRAM LIBRARY..

The checksum of a crate is the SHA-256 of the lines that `sha256sum` writes for its files, in the order of their names.
"""
import datetime
import hashlib
import json
import os
import sys

TOP = os.path.dirname(os.path.dirname(os.path.abspath(__file__)))
sys.dont_write_bytecode = True
sys.path.insert(0, os.path.join(TOP, "docs"))
from contracts import crates, needed

NOTHING = "NOASSERTION"


def sum_of_file(path):
    with open(path, "rb") as file:
        return hashlib.file_digest(file, "sha256").hexdigest()


def sum_of_folder(folder, parts=("",)):
    """The checksum over the files in some parts of a folder."""
    found = []
    for part in parts:
        for here, _, names in os.walk(os.path.join(folder, part)):
            found += [os.path.relpath(os.path.join(here, name), folder) for name in names]
    lines = "".join(f"{sum_of_file(os.path.join(folder, path))}  {path}\n" for path in sorted(found))
    return hashlib.sha256(lines.encode()).hexdigest()


def package(name, version, checksum, comment):
    return {
        "SPDXID": identifier(name),
        "name": name,
        "versionInfo": version,
        "downloadLocation": NOTHING,
        "filesAnalyzed": False,
        "checksums": [{"algorithm": "SHA256", "checksumValue": checksum}],
        "licenseConcluded": NOTHING,
        "licenseDeclared": NOTHING,
        "copyrightText": NOTHING,
        "comment": comment,
    }


def identifier(name):
    return f"SPDXRef-{name.replace('_', '-')}"


def released_files(program, library_files):
    """The released files: for each its path, its description, and the crates that it depends on."""
    released = {"program-talft": (program, "The program bin/talft", needed())}
    for path in library_files:
        name = os.path.basename(path)
        released[f"library-{name}"] = (path, f"The C library {name}", needed("ft_c"))
    return released


def of_crates(released, version, commit):
    """The packages and links of the released files and their crates."""
    packages = [package(name, version, sum_of_file(path), f"{what}, of commit {commit}.")
                for name, (path, what, _) in released.items()]
    links = [("SPDXRef-DOCUMENT", "DESCRIBES", identifier(name)) for name in released]
    for name in crates():
        users = [of for of, (*_, stands_on) in released.items() if name in stands_on]
        if users:
            checksum = sum_of_folder(os.path.join(TOP, "crates", name), ("src", "specs", "proofs"))
            packages.append(package(name, version, checksum, "A crate of this repository."))
        links += [(identifier(of), "CONTAINS", identifier(name)) for of in users]
        links += [(identifier(name), "DEPENDS_ON", identifier(library)) for library in crates()[name] if users]
    return packages, links


def of_kit(released, kit_folder, kit):
    """Likewise for the kit: the libraries that were compiled in, and the prover and compiler."""
    packages, links, users = [], [], {"std": list(released)}
    for of, (*_, stands_on) in released.items():
        for library in {library for name in stands_on for library in crates()[name]} - set(crates()) - {"std"}:
            users.setdefault(library, []).append(of)
    for name in sorted(users):
        folder = os.path.join(kit_folder, "rattle", name)
        packages.append(package(name, kit, sum_of_folder(folder), f"A library of the kit, {kit}."))
        links += [(identifier(of), "CONTAINS", identifier(name)) for of in users[name]]
    compiled = sum_of_folder(kit_folder, ("bin", "c", "logic_built", "toolchain"))
    packages.append(package("rattle-kit", kit, compiled, "Prover and compiler: bin/, c/, logic_built/ and toolchain/."))
    links += [("SPDXRef-rattle-kit", "BUILD_TOOL_OF", identifier(of)) for of in released]
    return packages, links


def of_heap(released, version):
    """Likewise for the C code that the library is linked with."""
    users = [of for of in released if of != "program-talft"]
    if not users:
        return [], []
    checksum = sum_of_file(os.path.join(TOP, "embed", "heap.c"))
    found = package("heap.c", version, checksum, "Memory of the C library, embed/heap.c: compiled by the C compiler of the host.")
    return [found], [(identifier(of), "CONTAINS", "SPDXRef-heap.c") for of in users]


def main(words):
    version, commit, seconds, kit_folder, kit, program, *library_files = words
    released = released_files(program, library_files)
    parts = of_crates(released, version, commit), of_kit(released, kit_folder, kit), of_heap(released, version)
    date = datetime.datetime.fromtimestamp(int(seconds), datetime.timezone.utc)
    written = {
        "spdxVersion": "SPDX-2.3",
        "dataLicense": "CC0-1.0",
        "SPDXID": "SPDXRef-DOCUMENT",
        "name": f"talft-{version}",
        "documentNamespace": f"https://spdx.org/spdxdocs/talft-{version}-{sum_of_file(program)}",
        "creationInfo": {
            "created": date.strftime("%Y-%m-%dT%H:%M:%SZ"),
            "creators": ["Tool: talft build/sbom.py"],
            "comment": f"{kit}; commit {commit}. The libc and the loader of the host are not included.",
        },
        "packages": [found for packages, _ in parts for found in packages],
        "relationships": [
            {"spdxElementId": source, "relationshipType": kind, "relatedSpdxElement": target}
            for _, links in parts for source, kind, target in links
        ],
    }
    print(json.dumps(written, indent=1))


main(sys.argv[1:])
