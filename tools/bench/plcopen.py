"""MAIN and the program of a source as PLCopen XML (TC6, version 2.01).

In it CifScan is a function block, since by IEC 61131-3 no program calls another one; its declarations and statements are those of the
text. The same source and program give the same file, so its date is a fixed one.
"""
import xml.etree.ElementTree as tree

TC6, XHTML = "http://www.plcopen.org/xml/tc6_0201", "http://www.w3.org/1999/xhtml"
DATE = "2000-01-01T00:00:00"
BLOCKS = {"VAR": "localVars", "VAR CONSTANT": "localVars", "VAR_INPUT": "inputVars", "VAR_OUTPUT": "outputVars"}


def element(parent, name, /, **attributes):
    return tree.SubElement(parent, f"{{{TC6}}}{name}", attributes)


def add_type(parent, kind, low=None, high=None):
    found = element(parent, "type")
    if kind == "RANGE":
        subrange = element(found, "subrangeSigned")
        element(subrange, "range", lower=str(low), upper=str(high))
        element(element(subrange, "baseType"), "LINT")
    else:
        element(found, kind)


def add_note(parent, text):
    tree.SubElement(element(parent, "documentation"), f"{{{XHTML}}}xhtml").text = text


def add_variable(parent, name, kind, low=None, high=None, first=None, note=None):
    found = element(parent, "variable", name=name)
    add_type(found, kind, low, high)
    if first is not None:
        element(element(found, "initialValue"), "simpleValue", value=str(first).upper())
    if note:
        add_note(found, note)


def add_body(pou, lines):
    text = tree.SubElement(element(element(pou, "body"), "ST"), f"{{{XHTML}}}xhtml")
    text.text = "\n" + "\n".join(lines) + "\n"


def add_program(pous, written):
    """The program as it is written, with its blocks in their order."""
    program = written.program
    pou = element(pous, "pou", name=program.name, pouType="functionBlock")
    interface, block = element(pou, "interface"), None
    for it in program.variables:
        if it.block != block:
            block = it.block
            part = element(interface, BLOCKS[block], **({"constant": "true"} if block == "VAR CONSTANT" else {}))
        add_variable(part, it.name, it.kind, it.low, it.high, it.first)
    add_body(pou, program.body_text.rstrip().splitlines())
    return program.name


def add_main(pous, frame, called):
    pou = element(pous, "pou", name="MAIN", pouType="program")
    interface = element(pou, "interface")
    instance = element(element(interface, "localVars"), "variable", name="scan")
    element(element(instance, "type"), "derived", name=called)
    bound = frame.inputs + frame.outputs
    if bound:
        part = element(interface, "externalVars")
        for it in bound:
            add_variable(part, it.name, it.type)
    add_body(pou, frame.call("scan", ""))


def add_head(project):
    element(project, "fileHeader", companyName="", productName="cif wrap", productVersion="1", creationDateTime=DATE)
    header = element(project, "contentHeader", name="cif")
    # (in this order, as the schema has it)
    tree.SubElement(header, f"{{{TC6}}}Comment").text = "Tried with no vendor."
    info = element(header, "coordinateInfo")
    for language in ("fbd", "ld", "sfc"):
        element(element(info, language), "scaling", x="1", y="1")


def add_instances(project, frame):
    configuration = element(element(element(project, "instances"), "configurations"), "configuration", name="Config")
    resource = element(configuration, "resource", name="Res")
    task = element(resource, "task", name="Scan", priority="1", interval="T#10ms")
    element(task, "pouInstance", name="Main", typeName="MAIN")
    bound = frame.inputs + frame.outputs
    if bound:
        part = element(resource, "globalVars")
        for it in bound:
            add_variable(part, it.name, it.type, note=it.what)


def as_xml(frame, written):
    tree.register_namespace("", TC6)
    tree.register_namespace("xhtml", XHTML)
    project = tree.Element(f"{{{TC6}}}project")
    add_head(project)
    types = element(project, "types")
    element(types, "dataTypes")
    pous = element(types, "pous")
    add_main(pous, frame, add_program(pous, written))
    add_instances(project, frame)
    indent(project)
    return '<?xml version="1.0" encoding="utf-8"?>\n' + tree.tostring(project, encoding="unicode") + "\n"


def indent(at, depth=0):
    """Puts each element on a line of its own, but for texts."""
    if len(at):
        at.text = "\n" + "  " * (depth + 1)
        for inner in at:
            indent(inner, depth + 1)
            inner.tail = "\n" + "  " * (depth + 1)
        at[-1].tail = "\n" + "  " * depth
