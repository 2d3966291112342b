"""The checkout of this package, and the documents in its folder docs/ that the package reads. A wheel
has copies of those."""
import importlib.metadata
import json
import os
import pkgutil
import urllib.parse
import urllib.request

from .errors import CoxeterError


def read_document(name):
    """The text of a document, as `MANUAL.md`: the copy that was installed with the package, else the one
    in the checkout that the package lies in, or was installed from. Raises CoxeterError where there is
    none.

    >>> read_document("RELEASES.md").splitlines()[0]
    '# Releases'
    """
    try:
        return pkgutil.get_data(__package__, name).decode()
    except OSError:
        pass
    for checkout in checkouts():
        path, package = os.path.join(checkout, "docs", name), os.path.join(checkout, "python", __package__)
        if os.path.isfile(path) and os.path.isdir(package):
            with open(path, encoding="utf-8") as document:
                return document.read()
    why = "was not installed with the package"
    raise CoxeterError(f"the document {name} {why}: see docs/{name} of the checkout")


def checkouts():
    """The folders that may be this package's checkout: the one that it lies in, and the one that pip installed it from."""
    package = os.path.dirname(os.path.abspath(__file__))
    yield os.path.dirname(os.path.dirname(package))
    try:
        installed = importlib.metadata.distribution("coxeter_shell")
        if not os.path.samefile(installed.locate_file("coxeter_shell"), package):
            return
        url = urllib.parse.urlsplit(json.loads(installed.read_text("direct_url.json") or "{}").get("url", ""))
    except (importlib.metadata.PackageNotFoundError, OSError, ValueError):
        return
    if url.scheme == "file":
        yield os.path.dirname(os.path.normpath(urllib.request.url2pathname(url.path)))
