"""A ledger in the four files of a volume, beside `ledger_model.py`: what `init` and `run` print, and what they leave in the files.

It shares nothing with the program: docs/FORMATS.md has the layout of the files, and when a store goes on to its next epoch.
"""

from ledger_model import HEADER, BadImage, BadRecord, Text, Wrong, cut_image, ledger_of, marked, sha, take_mark, u32, u64

FILES = ("image0", "image1", "journal0", "journal1")
# how many bytes come before the image, by the format of its file; a file of either is open from the first one's on
HEADS = {1: 49, 2: 81}
# the first word of a record with vouches, which a journal of format 1 doesn't hold
FORM_2 = u32(0x80000002)
# the bit of the epoch's word that says format 2
TOP = 2**63
MOST = 16777216
LAST_EPOCH = 2**63 - 1
# how many ledgers are closed between two images
STRETCH = 64


class BadStore(Exception):
    """Open files that are no store: a file, and an offset in it."""


class Missing(Exception):
    """No image is open."""


# ---- what is in the files


def image_file(epoch, network, image, gate=1, form=2):
    """The file of an image: of format 2 with the image's hash, or of format 1, which is read and never written any more."""
    word, digest = (epoch, b"") if form == 1 else (epoch + TOP, sha(image))
    return bytes([gate]) + u64(word) + network + u64(len(image)) + digest + image


def in_format_1(file):
    """The image of a file of format 2, in one of format 1."""
    return image_file(epoch_of(file), file[9:41], file[HEADS[2]:], file[0], 1)


def journal_file(records, rest=b"\0"):
    """A journal of records, with what follows them: a closed gate, unless it is said."""
    return b"".join(b"\1" + u32(len(record)) + record for record in records) + rest


def is_open(file):
    return len(file) >= HEADS[1] and file[0] == 1


def number(data):
    return int.from_bytes(data, "big")


def form_of(file):
    return 2 if number(file[1:9]) >= TOP else 1


def epoch_of(file):
    return number(file[1:9]) % TOP


def fault_of(index, file):
    """The offset at which an open image's head doesn't fit its file, or None. An image's hash is judged whether it counts or not."""
    form, epoch = form_of(file), epoch_of(file)
    if epoch % 2 != index or (form == 1 and epoch == LAST_EPOCH):
        return 1
    if number(file[41:49]) != len(file) - HEADS[form]:
        return 41
    if form == 2 and file[49:81] != sha(file[81:]):
        return 49
    return None


def records_of(index, file):
    """The records of a journal, with the offsets of their gates, and that of the gate after them."""
    at, records = 0, []
    while True:
        if at >= len(file):
            raise BadStore(index, at)
        if file[at] != 1:
            return records, at
        length = number(file[at + 1:at + 5])
        end = at + 5 + length
        if len(file) < at + 5 or length > MOST or len(file) < end:
            raise BadStore(index, at)
        records.append((at, file[at + 5:end]))
        at = end


def complete_image(data):
    """The header and the files of an image after which nothing follows, or None."""
    text = Text(data)
    try:
        cut = cut_image(text)
    except Wrong:
        return None
    return cut if text.at == len(data) else None


class Store:
    """What a volume opens to: a format, an epoch, and the ledger after its image and its records."""

    def __init__(self, files):
        self.files, epochs = list(files), {}
        for index, file in enumerate(self.files[:2]):
            if is_open(file):
                epochs[index] = epoch_of(file)
                fault = fault_of(index, file)
                if fault is not None:
                    raise BadStore(index, fault)
        if not epochs:
            raise Missing
        index = max(epochs, key=epochs.get)
        self.epoch, self.form, self.network = epochs[index], form_of(self.files[index]), self.files[index][9:41]
        head = HEADS[self.form]
        cut = complete_image(self.files[index][head:])
        if cut is None:
            raise BadStore(index, head)
        records, self.gate = records_of(2 + index, self.files[2 + index])
        try:
            self.ledger = ledger_of(self.network, *cut)
        except BadImage:
            raise BadStore(index, head) from None
        for at, record in records:
            if self.form == 1 and record[:4] == FORM_2:
                raise BadStore(2 + index, at)
            try:
                self.ledger.close(record)
            except BadRecord:
                raise BadStore(2 + index, at) from None

    def close(self, record):
        """Closes the ledger by a record and keeps it; answers its lines."""
        lines = self.ledger.close(record)
        index = 2 + self.epoch % 2
        written = journal_file([record])
        file = self.files[index]
        self.files[index] = file[:self.gate] + written + file[self.gate + len(written):]
        self.gate += len(written) - 1
        if (self.ledger.header["seq"] + 1) % STRETCH == 0 and self.epoch < LAST_EPOCH:
            self.go_on()
        return lines

    def go_on(self):
        """Goes on to the next epoch, which is of format 2."""
        self.epoch, self.form, self.gate = self.epoch + 1, 2, 0
        index = self.epoch % 2
        self.files[index] = image_file(self.epoch, self.network, image_of(self.ledger))
        self.files[2 + index] = journal_file([])


def image_of(ledger):
    files = [bucket.file for bucket in ledger.levels.files]
    return b"SLI1" + marked(HEADER.write(ledger.header)) + b"".join(u64(len(file)) + file for file in files)


# ---- the commands: what each writes to its output and to standard error, its status, and the files after it


def init(passphrase, data, files):
    """What `init` yields over the files of a volume."""
    text, network = Text(data), sha(passphrase.encode())
    try:
        cut = cut_image(text)
        if text.at < len(data):
            raise Wrong(text.at, "bytes after the image")
        ledger_of(network, *cut)
    except Wrong as wrong:
        return ("", f"bad input at {wrong.at}\n", 9), files
    except BadImage as wrong:
        return ("", f"bad image {wrong}\n", 10), files
    if any(map(is_open, files[:2])):
        return ("", "already there\n", 12), files
    return ("", "", 0), [image_file(0, network, data), files[1], journal_file([]), files[3]]


def run(data, files):
    """What `run` yields over the files of a volume."""
    try:
        store = Store(files)
    except Missing:
        return ("", "missing\n", 11), files
    except BadStore as wrong:
        return ("", f"bad store at {wrong.args[0]} {wrong.args[1]}\n", 7), files
    if store.form == 1:
        store.go_on()
    text, out = Text(data), []
    try:
        while text.at < len(data):
            out.append(store.close(text.take(take_mark(text, MOST))))
    except Wrong as wrong:
        return ("".join(out), f"bad input at {wrong.at}\n", 9), store.files
    except BadRecord as wrong:
        return ("".join(out) + f"refused {store.ledger.header['seq'] + 1} {wrong}\n", "", 3), store.files
    return ("".join(out) + f"end {store.ledger.header['seq']} {store.ledger.hash.hex()}\n", "", 0), store.files


def show(files):
    """What `show` yields over the files of a volume, which stay."""
    try:
        store = Store(files)
    except Missing:
        return "", "missing\n", 11
    except BadStore as wrong:
        return "", f"bad store at {wrong.args[0]} {wrong.args[1]}\n", 7
    header, records = store.ledger.header, len(records_of(2, store.files[2 + store.epoch % 2])[0])
    lines = [
        f"ledger {header['seq']} {store.ledger.hash.hex()}", f"epoch {store.epoch} records {records}",
        f"lumens {header['coins']} {header['pool']}", f"entries {len(store.ledger.entries)}",
    ]
    return "".join(f"{line}\n" for line in lines), "", 0
