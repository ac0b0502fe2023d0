"""The file of --plan-file or --certificate: which may be replaced, and how a plan or a certificate is put there."""
import os
import re
import stat

CALLS = re.compile(rb"(?:[ \t\r\n\f\v]|;[^\n]*(?:\n|\Z)|\([^();]*\))*\Z")
CERTIFICATE = re.compile(rb"(?:c [^\n]*\n|\n)*(?:clauses (?:forward|backward)|weights)\n(?:[-0-9 ]*\n)*\Z")


class Refused(Exception):
    """The file may not be taken, and why."""


class PlanFile:
    """A file that a plan is put into, or none."""

    option, form, what = "--plan-file", CALLS, "plan file (calls and comments)"

    def __init__(self, path, inputs):
        self.path = None
        if path is None:
            return
        if not path:
            raise Refused(f"{self.option} takes the name of a file")
        self.path = os.path.realpath(path)
        self.look(path, inputs)

    def look(self, path, inputs):
        """Sees that no file is lost that is no plan."""
        if self.path.startswith(("/dev/", "/proc/")):
            raise Refused(f"{path} is no file")
        try:
            there = os.stat(self.path)
        except FileNotFoundError:
            there = None
        except OSError as error:
            raise Refused(f"{path}: {error.strerror}") from error
        if there is None:
            if os.path.basename(path) in ("", ".", ".."):
                raise Refused(f"{path} is no file")
            return
        if not stat.S_ISREG(there.st_mode):
            raise Refused(f"{path} is no file")
        for it in inputs:
            if same_file(it, there):
                raise Refused(f"{path} is one of the files that are read")
        if not has_form(self.path, self.form):
            raise Refused(f"{path} is no {self.what}, and is not replaced")

    def begin(self):
        """That of an earlier call goes, and it is seen that a new one can be put there."""
        if self.path:
            self.fresh()[1].close()
            os.unlink(self.temporary)
            if os.path.lexists(self.path):
                os.unlink(self.path)

    def fresh(self):
        """A new file beside the place."""
        while True:
            self.temporary = os.path.join(os.path.dirname(self.path), f".{os.path.basename(self.path)[:100]}.{os.urandom(8).hex()}")
            try:
                number = os.open(self.temporary, os.O_WRONLY | os.O_CREAT | os.O_EXCL | os.O_NOFOLLOW, 0o666)
                return self.temporary, os.fdopen(number, "wb")
            except FileExistsError:
                continue

    def put(self, lines):
        """Puts lines there, whole or not at all."""
        if not self.path:
            return
        temporary, file = self.fresh()
        try:
            with file:
                file.write("".join(f"{it}\n" for it in lines).encode("latin-1"))
                file.flush()
                os.fsync(file.fileno())
            os.rename(temporary, self.path)
        except OSError:
            os.unlink(temporary)
            raise


class CertificateFile(PlanFile):
    """A file that a certificate is put into, or none."""

    option, form, what = "--certificate", CERTIFICATE, "certificate"


def same_file(path, there):
    """Whether a name leads to this file, by its device and number."""
    try:
        it = os.stat(path)
    except OSError:
        return False
    return (it.st_dev, it.st_ino) == (there.st_dev, there.st_ino)


def has_form(path, form):
    """Whether a file has this form, and is not long."""
    try:
        with open(path, "rb") as file:
            text = file.read((1 << 24) + 1)
    except OSError as error:
        raise Refused(f"{path}: {error.strerror}") from error
    return len(text) <= 1 << 24 and form.match(text) is not None
