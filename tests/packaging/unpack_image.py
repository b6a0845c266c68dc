"""Unpacks an image in the form of OCI as an engine does: from index.json to the manifest, the config and the layers, each with its digest and
its size compared. It fails if one differs, or if manifest.json, which Docker reads, names other files. usage: unpack_image.py IMAGE FOLDER
"""

import hashlib
import io
import json
import sys
import tarfile
from typing import Any


def same(name: str, found: object, wanted: object) -> None:
    if found != wanted:
        sys.exit(f"{name}: {found}, where {wanted} is named")


class Image:
    def __init__(self, path: str) -> None:
        with tarfile.open(path) as archive:
            self.files = {entry.name: content.read() for entry in archive if entry.isfile() and (content := archive.extractfile(entry))}

    def json(self, name: str) -> Any:
        return json.loads(self.files[name])

    def blob(self, described: dict[str, Any]) -> bytes:
        """The content of a descriptor."""
        kind, _, name = described["digest"].partition(":")
        content = self.files[f"blobs/{kind}/{name}"]
        same(name, hashlib.sha256(content).hexdigest(), name)
        same(f"the size of {name}", len(content), described["size"])
        return content


def main(path: str, folder: str) -> None:
    image = Image(path)
    same("oci-layout", image.json("oci-layout"), {"imageLayoutVersion": "1.0.0"})
    (described,) = image.json("index.json")["manifests"]
    manifest = json.loads(image.blob(described))
    config = json.loads(image.blob(manifest["config"]))
    layers = [image.blob(layer) for layer in manifest["layers"]]
    same("the layers", config["rootfs"]["diff_ids"], [f"sha256:{hashlib.sha256(layer).hexdigest()}" for layer in layers])
    same("what is run", config["config"]["Entrypoint"], ["/qrp_cmd"])
    (legacy,) = image.json("manifest.json")
    blob = lambda part: "blobs/" + part["digest"].replace(":", "/")
    same("manifest.json", (legacy["Config"], legacy["Layers"]), (blob(manifest["config"]), [blob(layer) for layer in manifest["layers"]]))
    used = [blob(part) for part in (described, manifest["config"], *manifest["layers"])]
    same("the blobs", sorted(name for name in image.files if name.startswith("blobs/")), sorted(used))
    for layer in layers:
        with tarfile.open(fileobj=io.BytesIO(layer)) as archive:
            archive.extractall(folder)


if __name__ == "__main__":
    main(*sys.argv[1:])
