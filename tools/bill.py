"""Writes the list of what an installation has, in the form of SPDX 2.3: each file with its checksums, and what the
program and the libraries are made of and need."""

import hashlib
import json
import os
from datetime import datetime, timezone

from project import KIT
from staging import names_in


def file_row(number, file, name):
    content = file.read_bytes()
    sums = [{"algorithm": kind, "checksumValue": hashlib.new(kind, content).hexdigest()} for kind in ("sha1", "sha256")]
    for it in sums:
        it["algorithm"] = it["algorithm"].upper()
    return {"SPDXID": f"SPDXRef-File-{number}", "fileName": f"./{name}", "checksums": sums,
            "licenseConcluded": "NOASSERTION", "licenseInfoInFiles": ["NONE"], "copyrightText": "NOASSERTION"}


def package_row(name, version, **more):
    return {"SPDXID": f"SPDXRef-Package-{name}", "name": name, "versionInfo": version,
            "downloadLocation": "NOASSERTION", "licenseConcluded": "NOASSERTION", "licenseDeclared": "NOASSERTION",
            "copyrightText": "NOASSERTION", "filesAnalyzed": False, **more}


def verification_code(rows):
    """The code of SPDX for a list of files: of the sorted SHA-1 checksums."""
    sums = sorted(row["checksums"][0]["checksumValue"] for row in rows)
    return hashlib.sha1("".join(sums).encode()).hexdigest()


def related(one, kind, other):
    return {"spdxElementId": one, "relationshipType": kind, "relatedSpdxElement": other}


def write_bill(staged, version, folder):
    """Writes the list of an installation's files into a folder."""
    names = [name for name in names_in(staged) if not (staged / name).is_symlink()]
    rows = [file_row(number, staged / name, name) for number, name in enumerate(names, 1)]
    code = verification_code(rows)
    kit, _, logic = KIT.partition(" ")
    vlm = package_row("vlm", version, filesAnalyzed=True, licenseDeclared="NONE", licenseInfoFromFiles=["NONE"],
                      packageVerificationCode={"packageVerificationCodeValue": code})
    built_with = package_row("rattle-kit", kit.replace("rattle-kit-", ""),
                             comment=f"{logic}; its heap and crates are compiled into the program and the libraries")
    libuv, libc = package_row("libuv", "1", comment="vlmd links it"), package_row("glibc", "2", comment="all link it")
    openssl = package_row("openssl", "3", comment="vlmd and libvlm-tls link it")
    etcd3 = package_row("python-etcd3", "0.12", comment="replicas of vlmd run it, with Python 3")
    made = datetime.fromtimestamp(int(os.environ["SOURCE_DATE_EPOCH"]), timezone.utc)
    relations = [related("SPDXRef-DOCUMENT", "DESCRIBES", vlm["SPDXID"]),
                 related(vlm["SPDXID"], "STATIC_LINK", built_with["SPDXID"]),
                 related(vlm["SPDXID"], "DYNAMIC_LINK", libuv["SPDXID"]),
                 related(vlm["SPDXID"], "DYNAMIC_LINK", libc["SPDXID"]),
                 related(vlm["SPDXID"], "DYNAMIC_LINK", openssl["SPDXID"]),
                 related(etcd3["SPDXID"], "OPTIONAL_DEPENDENCY_OF", vlm["SPDXID"]),
                 *(related(vlm["SPDXID"], "CONTAINS", row["SPDXID"]) for row in rows)]
    bill = {"spdxVersion": "SPDX-2.3", "dataLicense": "CC0-1.0", "SPDXID": "SPDXRef-DOCUMENT",
            "name": f"vlm-{version}",
            "documentNamespace": f"https://vlm.invalid/spdx/vlm-{version}-{code}",
            "creationInfo": {"created": made.strftime("%Y-%m-%dT%H:%M:%SZ"), "creators": ["Tool: vlm-package"]},
            "packages": [vlm, built_with, libuv, libc, openssl, etcd3], "files": rows, "relationships": relations}
    (folder / f"vlm-{version}.spdx.json").write_text(json.dumps(bill, indent=1) + "\n")
