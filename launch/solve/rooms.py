"""Folders for a call: a private one, of which no outside program is told, and one for each outside program."""
import os
import stat


# A file of PDDL may have so many bytes; a longer one is cut behind them, and the planner says that it is too long.
LONGEST = 1 << 20


class Unread(Exception):
    """A file cannot be read: its path, and which of the call's files it is."""

    def __init__(self, path, which):
        super().__init__(path)
        self.path, self.which = path, which


def fresh(folder, prefix):
    """Makes a new folder that this user alone may enter."""
    while True:
        path = os.path.join(folder, f"{prefix}.{os.urandom(8).hex()}")
        try:
            os.mkdir(path, 0o700)
            return path
        except FileExistsError:
            continue


def write(path, text):
    """Writes a file that is not there yet."""
    number = os.open(path, os.O_WRONLY | os.O_CREAT | os.O_EXCL | os.O_NOFOLLOW, 0o600)
    with os.fdopen(number, "wb") as file:
        file.write(text)
    return path


def read_input(path, which):
    """The bytes of a file that the user names, which may be a pipe."""
    try:
        with open(path, "rb") as file:
            text = b""
            while len(text) <= LONGEST and (some := file.read(LONGEST + 1 - len(text))):
                text += some
            return text
    except OSError as error:
        raise Unread(path, which) from error


def read_made(path, most):
    """The bytes of a file that an outside program has made; None where it is none, or longer than it may be."""
    try:
        number = os.open(path, os.O_RDONLY | os.O_NOFOLLOW | os.O_NONBLOCK)
    except OSError:
        return None
    with os.fdopen(number, "rb") as file:
        if not stat.S_ISREG(os.fstat(number).st_mode):
            return None
        text = file.read(most + 1)
        return text if len(text) <= most else None


def size_of(folder, most=10000):
    """The bytes that the files of a folder take on the disk; at most so many of them are looked at."""
    total, left, seen = 0, [folder], 0
    while left and seen < most:
        try:
            with os.scandir(left.pop()) as rows:
                for row in rows:
                    seen += 1
                    total += row.stat(follow_symlinks=False).st_blocks * 512
                    if row.is_dir(follow_symlinks=False):
                        left.append(row.path)
        except OSError:
            continue
    return total


def take_away(folder):
    """Removes a folder with all that is in it, also where a program has taken leave of it away."""
    try:
        os.chmod(folder, 0o700)
        rows = list(os.scandir(folder))
    except OSError:
        return
    for row in rows:
        try:
            if row.is_dir(follow_symlinks=False):
                take_away(row.path)
            else:
                os.unlink(row.path)
        except OSError:
            pass
    try:
        os.rmdir(folder)
    except OSError:
        pass


class Rooms:
    """The folders of a call: what is private, and what outside programs are told of, in two places."""

    def __init__(self, temporary):
        self.temporary = temporary
        self.private = fresh(temporary, "solve")
        self.told, self.count = [], 0

    def outer(self):
        """A new folder for an outside program."""
        room = fresh(self.temporary, "run")
        self.told.append(room)
        return room

    def leave(self, room):
        """An outside program has ended, and what it has written goes."""
        take_away(room)
        if room in self.told:
            self.told.remove(room)

    def keep(self, text, name=None):
        """A private file with this text."""
        self.count += 1
        return write(os.path.join(self.private, name or str(self.count)), text)

    def free(self):
        """The bytes that are free where outside programs write."""
        it = os.statvfs(self.temporary)
        return it.f_bavail * it.f_frsize

    def size(self, room):
        """The bytes that an outside program has written."""
        return size_of(room)

    def remove(self):
        """Removes all of them."""
        for room in [*self.told, self.private]:
            take_away(room)


def environment(room):
    """What an outside program finds in its environment: its folder for what is temporary, and nothing of this call."""
    kept = {name: it for name, it in os.environ.items() if not name.startswith(("SOLVE_", "PLAN_BY_", "DOKYREVA_"))}
    return {**kept, "TMPDIR": room, "TMP": room, "TEMP": room}
