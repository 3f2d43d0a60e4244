"""Rows of meta commands: how they are written, and a server asked them."""
import re
import socket
import time

def esc(b):
    b = bytes(b)
    runs = re.search(rb"(.)\1{299,}", b, re.S)
    if runs:
        return esc(b[:runs.start()]) + "\\*%d;" % (runs.end() - runs.start()) + esc(b[runs.start():runs.start()+1]) + esc(b[runs.end():])
    out = []
    for c in b:
        if c == 13: out.append("\\r")
        elif c == 10: out.append("\\n")
        elif c == 9: out.append("\\t")
        elif c == 92: out.append("\\\\")
        elif 32 <= c < 127: out.append(chr(c))
        else: out.append("\\x%02x" % c)
    return "".join(out)

def unesc(s):
    out = bytearray(); i = 0
    while i < len(s):
        if s[i] == "\\":
            n = s[i+1]
            if n == "*":
                e = s.index(";", i); many = int(s[i+2:e]); i = e + 1
                if s[i] == "\\":
                    w = 4 if s[i+1] == "x" else 2
                    one = unesc(s[i:i+w]); i += w
                else: one = s[i].encode(); i += 1
                out += one * many; continue
            if n == "x": out.append(int(s[i+2:i+4], 16)); i += 4; continue
            out.append({"r": 13, "n": 10, "t": 9, "\\": 92}[n]); i += 2
        else: out.append(ord(s[i])); i += 1
    return bytes(out)

END = b"NOT_FOUND\r\n"

class Conn:
    def __init__(self, port):
        self.s = socket.create_connection(("127.0.0.1", port)); self.s.settimeout(3.0)
    def ask(self, data, wait=False):
        """what is answered, up to the reply of a touch behind it, which finds nothing; None behind it where the server waits or closes"""
        self.s.sendall(data)
        if wait: self.s.settimeout(0.5)
        else: self.s.sendall(b"touch zz_last 0\r\n")
        got = b""
        try:
            while wait or not got.endswith(END):
                d = self.s.recv(65536)
                if not d: return got, "closed"
                got += d
        except socket.timeout:
            return got, "waits"
        except ConnectionResetError:
            return got, "closed"
        return got[:-len(END)], None

class Told:
    def __init__(self): self.names = []
    def put(self, text):
        def sub(m):
            at = int(m.group(1)) - 1
            told = self.names[at] if at < len(self.names) else 0  # where none was told the answer differs anyway
            return b"%d" % (told + int(m.group(2) or 0))
        return re.sub(rb"<c(\d+)([+-]\d+)?>", sub, text)
    def take(self, answer):
        def sub(m):
            n = int(m.group(2))
            if n == 0: return m.group(0)
            if n not in self.names: self.names.append(n)
            return m.group(1) + b"<c%d>" % (self.names.index(n) + 1)
        out = []
        # only lines of replies, not blocks
        for line in answer.split(b"\r\n"):
            if re.match(rb"(VA|HD|EX|NS|NF|EN|ME)\b", line):
                line = re.sub(rb"( c)(\d+)(?= |$)", sub, line)
                line = re.sub(rb"( cas=)(\d+)(?= |$)", sub, line)
            elif re.match(rb"VALUE \S+ \d+ \d+ \d+$", line):
                line = re.sub(rb"( \d+ \d+ )(\d+)$", sub, line)
            out.append(line)
        return b"\r\n".join(out)

def run(port, key, inputs):
    c = Conn(port); told = Told(); answers = []
    for i in inputs:
        if isinstance(i, float): time.sleep(i); answers.append(None); continue
        data = told.put(i.replace(b"@", key))
        got, how = c.ask(data)
        text = told.take(got)
        if how: text += b"{%s}" % how.encode()
        answers.append(text)
        if how == "closed": break
    c.s.close()
    return answers


def rows_in(file):
    """each row: its name, its inputs (a number is a pause), and its answers"""
    for line in file.read_text().splitlines():
        if line and not line.startswith("#"):
            name, *parts = line.split("\t")
            yield name, [float(part[1:]) if part[0] == "~" else unesc(part[1:]) for part in parts if part[0] in ">~"], [unesc(part[1:]) for part in parts if part[0] == "<"]
