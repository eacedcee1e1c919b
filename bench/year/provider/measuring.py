"""What a run's directories hold: lines and octets of volumes, of their heads, and of access records."""
from dataclasses import dataclass

HEAD = (b"open", b"pool", b"transit", b"base", b"carry", b"unit")


@dataclass
class Held:
    """Of one server's volumes."""

    volumes: int = 0
    octets: int = 0
    lines: int = 0
    head_lines: int = 0
    head_octets: int = 0
    most_lines: int = 0
    access_octets: int = 0


def head_of(path):
    """How many lines and octets a volume begins with that tell what the one before left."""
    lines = octets = 0
    with open(path, "rb") as file:
        next(file, None)
        for line in file:
            words = line.split(b" ", 3)
            if len(words) < 3 or words[2].rstrip() not in HEAD:
                break
            lines, octets = lines + 1, octets + len(line)
    return lines, octets


def lines_of(path):
    """How many journal lines a closed volume has, by its last line."""
    with open(path, "rb") as file:
        file.seek(max(0, file.seek(0, 2) - 64))
        last = file.read().splitlines()[-1].split()
    return int(last[1]) if last[0] == b"end" else int(last[0])


def held(folder, name):
    """What a server's directory holds."""
    all_of = Held()
    for path in sorted(folder.glob(f"{name}-*.journal")):
        lines, (head_lines, head_octets) = lines_of(path), head_of(path)
        all_of.volumes += 1
        all_of.octets += path.stat().st_size
        all_of.lines += lines
        all_of.head_lines += head_lines
        all_of.head_octets += head_octets
        all_of.most_lines = max(all_of.most_lines, lines)
    all_of.access_octets = sum(path.stat().st_size for path in folder.glob(f"{name}-*.access"))
    return all_of


def table(folders, days):
    """A row for each server."""
    rows = ["| Server | volumes | octets | of them heads | lines | of them heads | most in one volume | access records, octets | lines a day, heads apart |",
            "|---|---|---|---|---|---|---|---|---|"]
    for folder in folders:
        of = held(folder, folder.name)
        rows.append(f"| {folder.name} | {of.volumes} | {of.octets:,} | {100 * of.head_octets / of.octets:.0f} % | {of.lines:,} | "
                    f"{100 * of.head_lines / of.lines:.0f} % | {of.most_lines:,} | {of.access_octets:,} | "
                    f"{(of.lines - of.head_lines) / days:,.0f} |")
    return "\n".join(rows)
