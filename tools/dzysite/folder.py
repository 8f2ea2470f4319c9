"""A site's folder: rules.bin, bundle.bin and names.txt, read and written."""
import os

from .files import read_bundle, read_rules, write_bundle, write_rules
from .kinds import FILES, Faults, Refused, Site
from .lines import text_of
from .names import name_all, read_names, write_names


def site_of(rules, bundle, names, names_file="names.txt"):
    """The site that three files say; names may be empty."""
    concepts, roles, rule_list = read_rules(rules)
    facts = read_bundle(bundle, concepts, roles)
    by_kind = read_names(names, names_file, concepts, roles)
    concept_names = name_all(by_kind, "concept", "C", concepts)
    by_kind["concept"] = dict(enumerate(concept_names))
    role_names = name_all(by_kind, "role", "R", roles)
    return Site(concept_names, role_names, by_kind["thing"], rule_list, facts)


def read_file(path):
    if os.path.isdir(path):
        raise Faults([f"{path}: expected a text, found a folder; 'site show DIR' prints it as a text"])
    with open(path, "rb") as file:
        return file.read()


def read_folder(folder):
    """The bytes of rules.bin and bundle.bin, and the text of names.txt, empty where it is missing."""
    for name in FILES[:2]:
        if not os.path.isfile(os.path.join(folder, name)):
            raise Faults([f"{folder}: expected a folder with rules.bin and bundle.bin, found no {name}; 'site build TEXT -o DIR' writes both"])
    rules, bundle = (read_file(os.path.join(folder, name)) for name in FILES[:2])
    names_path = os.path.join(folder, FILES[2])
    names = text_of(read_file(names_path), names_path) if os.path.exists(names_path) else ""
    return rules, bundle, names


def refused_file(folder, refused):
    """The message for a refused file of a folder."""
    return f"{os.path.join(folder, FILES[refused.side])}: {refused.told()}"


def site_of_folder(folder):
    return site_of(*read_folder(folder), os.path.join(folder, FILES[2]))


def load_folder(folder):
    """The site of a folder; a refusal is told."""
    try:
        return site_of_folder(folder)
    except Refused as refused:
        raise Faults([refused_file(folder, refused)]) from None


def contents(site, file):
    """The bytes of a site's three files, which must read back as the site."""
    rules, bundle, names = write_rules(site), write_bundle(site), write_names(site)
    if site_of(rules, bundle, names) != site:
        raise Faults([f"{file}: the bytes do not read back as the text; nothing is written"])
    return rules, bundle, names.encode()


def write_folder(folder, files):
    """Three files into a folder, made if it is missing; each is whole or not there."""
    os.makedirs(folder, exist_ok=True)
    for name, data in zip(FILES, files):
        path = os.path.join(folder, name)
        with open(path + ".new", "wb") as file:
            file.write(data)
        os.replace(path + ".new", path)
