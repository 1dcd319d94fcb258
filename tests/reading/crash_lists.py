"""A destination, which reads the lists of a source and reconstructs the source's resources."""
import hashlib
import xml.etree.ElementTree as ElementTree

SITEMAP = "{http://www.sitemaps.org/schemas/sitemap/0.9}"
RS = "{http://www.openarchives.org/rs/terms/}"


def place(element, base):
    """Return the path of a `loc` relative to the base."""
    return element.find(SITEMAP + "loc").text.removeprefix(base)


def gathered(path, served, base):
    """Return the facts of a list and its children, from all parts if the path has an index."""
    root = ElementTree.fromstring(served[path])
    children = root.findall(SITEMAP + "url")
    for pointer in root.findall(SITEMAP + "sitemap"):
        children += ElementTree.fromstring(served[place(pointer, base)]).findall(SITEMAP + "url")
    return root.find(RS + "md").attrib, children


def facts(element):
    """Return the digests, the length and the type of an element."""
    return {attribute: element.find(RS + "md").attrib[attribute] for attribute in ("hash", "length", "type")}


def mirrored(served):
    """Return the facts by path that a destination has after the Resource List and all later changes."""
    above = ElementTree.fromstring(served["/resourcelist.xml"]).find(RS + "ln").attrib["href"]
    base = above.removesuffix("/capabilitylist.xml")
    head, resources = gathered("/resourcelist.xml", served, base)
    mine = {place(resource, base): facts(resource) for resource in resources}
    bounds, changes = gathered("/changelist.xml", served, base)
    if bounds["from"] > head["at"]:
        raise ValueError(f"the Change List begins at {bounds['from']}, after the Resource List of {head['at']}")
    for element in changes:
        change = element.find(RS + "md").attrib
        if change["datetime"] <= head["at"]:
            continue
        if change["change"] == "deleted":
            del mine[place(element, base)]
        else:
            mine[place(element, base)] = facts(element)
    return mine


def fault(served, entries):
    """Return how the served documents and bodies differ from the entries of the held resources, or ''."""
    wanted = {f"/resource/{name}": vars(entry) for name, entry in entries.items()}
    bodies = {path: body for path, body in served.items() if path.startswith("/resource/")}
    mine = mirrored(served)
    if not mine.keys() == wanted.keys() == bodies.keys():
        return f"the lists yield {sorted(mine)}, and {sorted(wanted)} are held"
    for path, found in mine.items():
        body, entry = bodies[path], wanted[path]
        digests = f"md5:{hashlib.md5(body).hexdigest()} sha-256:{hashlib.sha256(body).hexdigest()}"
        if (found["hash"], found["length"], found["type"]) != (digests, str(len(body)), entry["kind"]):
            return f"{path} is not as the lists tell it"
    return ""
