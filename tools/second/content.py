"""The data set that an image stands for: it reads the whole image at once."""
from layout import (AGREDR, AZEDR, CHECKSUM, ENTRY_VALUE, GDR_DIMS, HAS_PAD, ROW_MAJOR, RVDR, TYPES, VARY, ZVDR, Adr,
                    Aedr, Cdr, Gdr, Vdr, turned)
from model import Attribute, DataSet, Variable


def content(image):
    gdr, flags = image.gdr, image[8, Cdr.Flags]
    return DataSet(
        release=image[8, Cdr.Release], increment=image[8, Cdr.Increment], encoding=image[8, Cdr.Encoding],
        row=bool(flags & ROW_MAJOR), md5=bool(flags & CHECKSUM),
        rdims=[image.number(gdr + GDR_DIMS + 4 * i, 4) for i in range(image[gdr, Gdr.rNumDims])],
        attributes=[attribute(image, adr) for adr in image.attributes()],
        r=[variable(image, vdr) for vdr in image.variables(RVDR)],
        z=[variable(image, vdr) for vdr in image.variables(ZVDR)])


def attribute(image, adr):
    return Attribute(image.name(adr, Adr.Name), image[adr, Adr.Scope],
                     entries(image, adr, AGREDR), entries(image, adr, AZEDR))


def entries(image, adr, kind):
    found = {}
    for at in image.entries(adr, kind):
        data_type, elems = TYPES[image[at, Aedr.DataType]], image[at, Aedr.NumElems]
        data = image.piece(at + ENTRY_VALUE, data_type.size * elems)
        found[image[at, Aedr.Num]] = (data_type.code, elems, turned(data_type, image.little, data))
    return found


def variable(image, vdr):
    data_type = TYPES[image[vdr, Vdr.DataType]]
    sizes, varys = image.dims(vdr)
    flags = image[vdr, Vdr.Flags]
    pad = None
    if flags & HAS_PAD:
        pad = turned(data_type, image.little, image.piece(image.pad_at(vdr), image.value_bytes(vdr)))
    return Variable(
        name=image.name(vdr, Vdr.Name), type=data_type.code, elems=image[vdr, Vdr.NumElems], dims=sizes, varys=varys,
        vary=bool(flags & VARY), sparse=image[vdr, Vdr.SRecords], rle=image.compressed(vdr),
        blocking=image[vdr, Vdr.BlockingFactor], max_rec=image[vdr, Vdr.MaxRec], pad=pad,
        recs=records(image, vdr, data_type))


def records(image, vdr, data_type):
    found, size, most = {}, image.record_bytes(vdr), image[vdr, Vdr.MaxRec]
    for leaf in image.leaves(image[vdr, Vdr.VXRhead]):
        plain = image.plain(vdr, leaf)
        for k in range(leaf.first, min(leaf.last, most) + 1):
            start = (k - leaf.first) * size
            found[k] = turned(data_type, image.little, plain[start:start + size])
    return found
