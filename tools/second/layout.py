"""Records of a CDF version 3 file: their types, their fields, and the tables of data types and encodings.

From the CDF Internal Format Description. A field is its place in the record and its width in bytes.
"""
from collections import namedtuple
from types import SimpleNamespace

Field = namedtuple('Field', 'offset width')

CDR, GDR, RVDR, ADR, AGREDR, VXR, VVR, ZVDR, AZEDR, CCR, CPR, SPR, CVVR, UIR = *range(1, 14), -1


def record(fields):
    """The fields of a record, after its RecordSize (8) and RecordType (4)."""
    places, offset = {}, 12
    for field in fields.split(','):
        name, width = field.split()
        places[name] = Field(offset, int(width))
        offset += int(width)
    return SimpleNamespace(**places)


RecordSize = Field(0, 8)
RecordType = Field(8, 4)

Cdr = record('GDRoffset 8, Version 4, Release 4, Encoding 4, Flags 4, rfuA 4, rfuB 4, Increment 4, '
             'Identifier 4, rfuE 4, Copyright 256')
Gdr = record('rVDRhead 8, zVDRhead 8, ADRhead 8, eof 8, NrVars 4, NumAttr 4, rMaxRec 4, rNumDims 4, '
             'NzVars 4, UIRhead 8, rfuC 4, LeapSecondLastUpdated 4, rfuE 4')
Vdr = record('VDRnext 8, DataType 4, MaxRec 4, VXRhead 8, VXRtail 8, Flags 4, SRecords 4, rfuB 4, rfuC 4, '
             'rfuF 4, NumElems 4, Num 4, CPRorSPRoffset 8, BlockingFactor 4, Name 256, zNumDims 4')
Adr = record('ADRnext 8, AgrEDRhead 8, Scope 4, Num 4, NgrEntries 4, MAXgrEntry 4, rfuA 4, AzEDRhead 8, '
             'NzEntries 4, MAXzEntry 4, rfuE 4, Name 256')
Aedr = record('AEDRnext 8, AttrNum 4, DataType 4, Num 4, NumElems 4, NumStrings 4, rfuB 4, rfuC 4, rfuD 4, rfuE 4')
Vxr = record('VXRnext 8, Nentries 4, NusedEntries 4')
Cvvr = record('rfuA 4, cSize 8')
Cpr = record('cType 4, rfuA 4, pCount 4, parameter 4')
Uir = record('NextUIR 8, PrevUIR 8')

GDR_DIMS = 84
RVDR_DIMS = 340
ZVDR_DIMS = 344
ENTRY_VALUE = 56
NODE_ENTRIES = 28
BLOCK_RECORDS = 12
PACKED_BYTES = 24

FIXED_PART = {CDR: 312, GDR: 84, RVDR: 340, ZVDR: 344, ADR: 324, AGREDR: 56, AZEDR: 56, VXR: 28, VVR: 12,
              CVVR: 24, CPR: 24, CCR: 12, SPR: 12, UIR: 12}

# CDR Flags
ROW_MAJOR, SINGLE_FILE, CHECKSUM, MD5 = 1, 2, 4, 8
# VDR Flags
VARY, HAS_PAD, COMPRESSED = 1, 2, 4

NAME_BYTES = 256
IMAGE_LIMIT = 1_073_741_824
BYTES_LIMIT = 67_108_864
LAST_NUMBER = 2_147_483_646
MOST_DIMS = 10
INDEX_DEPTH = 8

DataType = namedtuple('DataType', 'name code size signed pad')


def _signed(size, value):
    return value.to_bytes(size, 'big', signed=True)


TYPES = {t.code: t for t in (
    DataType('INT1', 1, 1, True, _signed(1, -127)),
    DataType('INT2', 2, 2, True, _signed(2, -32767)),
    DataType('INT4', 4, 4, True, _signed(4, -2147483647)),
    DataType('INT8', 8, 8, True, _signed(8, -9223372036854775807)),
    DataType('UINT1', 11, 1, False, bytes.fromhex('fe')),
    DataType('UINT2', 12, 2, False, bytes.fromhex('fffe')),
    DataType('UINT4', 14, 4, False, bytes.fromhex('fffffffe')),
    DataType('REAL4', 21, 4, None, bytes.fromhex('f149f2ca')),
    DataType('REAL8', 22, 8, None, bytes.fromhex('c6293e5939a08cea')),
    DataType('EPOCH', 31, 8, None, bytes(8)),
    DataType('EPOCH16', 32, 16, None, bytes(16)),
    DataType('TIME_TT2000', 33, 8, True, _signed(8, -9223372036854775807)),
    DataType('BYTE', 41, 1, True, _signed(1, -127)),
    DataType('FLOAT', 44, 4, None, bytes.fromhex('f149f2ca')),
    DataType('DOUBLE', 45, 8, None, bytes.fromhex('c6293e5939a08cea')),
    DataType('CHAR', 51, 1, None, b' '),
    DataType('UCHAR', 52, 1, None, b' '),
)}
TYPE_NAMED = {t.name: t for t in TYPES.values()}
TEXT_TYPES = (51, 52)

BIG_ENDIAN = (1, 2, 5, 7, 9, 11, 12, 18)
LITTLE_ENDIAN = (4, 6, 13, 16, 17)
ENCODINGS = BIG_ENDIAN + LITTLE_ENDIAN


def turned(data_type, little, data):
    """Bytes between network order and an encoding's order; an EPOCH16 is two halves."""
    size = 8 if data_type.size == 16 else data_type.size
    if not little or size == 1:
        return bytes(data)
    return b''.join(bytes(data[i:i + size][::-1]) for i in range(0, len(data), size))


def default_pad(data_type, elems):
    return data_type.pad * elems


def node_size(entries):
    return NODE_ENTRIES + 16 * entries


def fresh_image():
    """The new file: the CDR at 8 and the GDR at 320."""
    image = bytearray(404)
    image[0:8] = bytes.fromhex('cdf300010000ffff')

    def put(at, field, value):
        image[at + field.offset:at + field.offset + field.width] = value.to_bytes(field.width, 'big', signed=True)
    for at, size, kind in ((8, 312, CDR), (320, 84, GDR)):
        put(at, RecordSize, size)
        put(at, RecordType, kind)
    for field, value in ((Cdr.GDRoffset, 320), (Cdr.Version, 3), (Cdr.Release, 9), (Cdr.Encoding, 6), (Cdr.Flags, 3),
                         (Cdr.Identifier, 2), (Cdr.rfuE, -1)):
        put(8, field, value)
    text = b'\nCommon Data Format (CDF)\n'
    image[8 + Cdr.Copyright.offset:8 + Cdr.Copyright.offset + len(text)] = text
    for field, value in ((Gdr.eof, 404), (Gdr.rMaxRec, -1), (Gdr.LeapSecondLastUpdated, -1), (Gdr.rfuE, -1)):
        put(320, field, value)
    return image
