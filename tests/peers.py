"""Other readers of Intel HEX: GNU objcopy, srec_cat and Python's intelhex. Each gives the places that a text states, by their address, or
raises an error where it refuses the text; and each writes a text from such places. The last two also merge texts into one, in which the
later text wins. The first two also read S-records, write a text of Intel HEX as S-records, and make a binary of S-records: the bytes from
the lowest address to the highest, 0 where none is stated. They also turn a text with a start into S-records and back: the address of the
start is that of the end. The last gives the start of a text as it is stated. A text is a string of one character a byte."""
import io
import os
import shutil
import subprocess
import tempfile

try:
    import intelhex
except ImportError:
    intelhex = None


# ---- S-records

ADDRESS_BYTES = {0: 2, 1: 2, 2: 3, 3: 4, 5: 2, 6: 3, 7: 4, 8: 3, 9: 2}


def srecord(kind, address, data=b''):
    body = address.to_bytes(ADDRESS_BYTES[kind], 'big') + data
    body = bytes([len(body) + 1]) + body
    return 'S%d%s%02X\n' % (kind, body.hex().upper(), ~sum(body) & 255)


def to_srecords(places):
    lines, begun, data = [srecord(0, 0)], 0, b''
    for address in sorted(places):
        if data and (len(data) == 32 or address != begun + len(data)):
            lines.append(srecord(3, begun, data))
            data = b''
        if not data:
            begun = address
        data += bytes([places[address]])
    if data:
        lines.append(srecord(3, begun, data))
    return ''.join(lines) + srecord(7, 0)


def of_srecords(text):
    """The address of each byte stated, with it; a line that is not an S-record, a wrong count and a place stated twice raise an error."""
    places, count = {}, 0
    for line in text.split():
        kind, body = int(line[1]), bytes.fromhex(line[2:])
        if line[0] != 'S' or body[0] != len(body) - 1 or sum(body) % 256 != 255:
            raise ValueError('not an S-record: ' + line)
        size = ADDRESS_BYTES[kind]
        address, data = int.from_bytes(body[1:1 + size], 'big'), body[1 + size:-1]
        if kind in (5, 6) and address != count:
            raise ValueError('another count: ' + line)
        if kind not in (1, 2, 3):
            continue
        count += 1
        for i, byte in enumerate(data):
            if address + i in places:
                raise ValueError('stated twice: %X' % (address + i))
            places[address + i] = byte
    return places


# ---- the tools

class Refused(ValueError):
    """A program ended with a status that is not 0."""


def run(words, given=b''):
    ended = subprocess.run(words, input=given, stdout=subprocess.PIPE, stderr=subprocess.PIPE, timeout=300)
    if ended.returncode != 0:
        raise Refused('%s: %s' % (words[0], ended.stderr.decode(errors='replace').strip()))
    return ended.stdout


def turned(words, *texts):
    """What a tool makes of texts; in its words < stands for the file of the first text, << for that of the second, > for the file that
    it writes."""
    with tempfile.TemporaryDirectory() as work:
        names = {'>': os.path.join(work, 'out')}
        for number, text in enumerate(texts, 1):
            names['<' * number] = os.path.join(work, 'in%d' % number)
            with open(names['<' * number], 'wb') as file:
                file.write(text.encode('latin-1'))
        run([names.get(word, word) for word in words])
        with open(names['>'], encoding='latin-1', newline='') as file:
            return file.read()


class Objcopy:
    name, package, refuses = 'objcopy', 'binutils', Refused
    there = shutil.which('objcopy') is not None
    takes_nothing = False  # "the input file has no sections"

    def read(self, text):
        return of_srecords(turned('objcopy -I ihex -O srec < >'.split(), text))

    def write(self, places):
        return turned('objcopy -I srec -O ihex < >'.split(), to_srecords(places))

    # How it is asked for S-records.
    forms = {'as it does': '', 'as S3': '--srec-forceS3', 'of 7 bytes': '--srec-len=7'}

    def write_srecords(self, text, options):
        return turned(['objcopy', '-I', 'ihex', '-O', 'srec', *options.split(), '<', '>'], text)

    def read_srecords(self, text):
        return of_srecords(turned('objcopy -I srec -O srec < >'.split(), text))

    def binary(self, text, lowest):
        return turned('objcopy -I srec -O binary < >'.split(), text).encode('latin-1')

    # It states no start that is 0, and cuts one to as many bytes as the addresses of the data have.
    states_zero = False

    def to_srecords(self, text):
        return turned('objcopy -I ihex -O srec --srec-forceS3 < >'.split(), text)

    def of_srecords(self, text):
        return turned('objcopy -I srec -O ihex < >'.split(), text)


class SrecCat:
    name, package, refuses = 'srec_cat', 'srecord', Refused
    there = shutil.which('srec_cat') is not None
    takes_nothing = False  # "file contains no data"

    def read(self, text):
        return of_srecords(turned('srec_cat < -intel -o > -motorola'.split(), text))

    def write(self, places):
        return turned('srec_cat < -motorola -o > -intel'.split(), to_srecords(places))

    # How it is asked for S-records. It writes an end record only where it is told a start address.
    START = '-execution-start-address=0'
    forms = {'as it does': START, 'as S3': '-address-length=4 ' + START, 'of 44 characters': '-line-length=44 ' + START}

    def write_srecords(self, text, options):
        return turned(['srec_cat', '<', '-intel', '-o', '>', '-motorola', *options.split()], text)

    def read_srecords(self, text):
        return of_srecords(turned('srec_cat < -motorola -o > -motorola'.split(), text))

    def binary(self, text, lowest):
        return turned(['srec_cat', '<', '-motorola', '-offset', '-0x%X' % lowest, '-o', '>', '-binary'], text).encode('latin-1')

    states_zero = True

    def to_srecords(self, text):
        return turned('srec_cat < -intel -o > -motorola'.split(), text)

    def of_srecords(self, text):
        return turned('srec_cat < -motorola -o > -intel'.split(), text)

    def merge(self, *texts):
        files = [word for number in range(1, len(texts) + 1) for word in ('<' * number, '-intel')]
        return turned(['srec_cat', '-contradictory-bytes=ignore', *files, '-o', '>', '-intel'], *texts)


class Intelhex:
    name, package, refuses = 'intelhex', 'python3-intelhex', Exception
    there = intelhex is not None
    takes_nothing = True

    def read(self, text):
        read = intelhex.IntelHex(io.StringIO(text))
        return {address: read[address] for address in read.addresses()}

    def start(self, text):
        """The kind of start of a text and its two values, as ihex_load returns them."""
        stated = intelhex.IntelHex(io.StringIO(text)).start_addr or {}
        if 'EIP' in stated:
            return 5, stated['EIP'], 0
        return (3, stated['CS'], stated['IP']) if stated else (0, 0, 0)

    def write(self, places):
        text = io.StringIO()
        intelhex.IntelHex(places).write_hex_file(text)
        return text.getvalue()

    def merge(self, *texts):
        merged, written = intelhex.IntelHex(), io.StringIO()
        for text in texts:
            merged.merge(intelhex.IntelHex(io.StringIO(text)), overlap='replace')
        merged.write_hex_file(written)
        return written.getvalue()


TOOLS = Objcopy(), SrecCat(), Intelhex()


def there():
    """The tools that can be run; a line that begins with '-- passed over:' names each other one."""
    for tool in TOOLS:
        if not tool.there:
            print('-- passed over: %s: the package %s cannot be had' % (tool.name, tool.package))
    return [tool for tool in TOOLS if tool.there]
