"""A debugger's end of GDB's Remote Serial Protocol, over sbigdb as a program, for the tools here."""
import subprocess


class Talk:
    """A talk with sbigdb, which was started with these words."""

    def __init__(self, words):
        self.program = subprocess.Popen(words, stdin=subprocess.PIPE, stdout=subprocess.PIPE)
        self.ask("QStartNoAckMode")

    def byte(self):
        byte = self.program.stdout.read(1)
        assert byte, "the program ended"
        return byte

    def packet(self):
        while (byte := self.byte()) == b"+":
            pass
        assert byte == b"$", byte
        body = b""
        while (byte := self.byte()) != b"#":
            body += byte
        assert int(self.byte() + self.byte(), 16) == sum(body) % 256
        payload, escaped = b"", False
        for byte in body:
            if not escaped and byte == 0x7D:
                escaped = True
                continue
            payload += bytes([byte ^ 32 if escaped else byte])
            escaped = False
        return payload

    def ask(self, text):
        """The answer to a packet, and what the console was told before it."""
        body = text.encode()
        self.program.stdin.write(b"$" + body + b"#%02x" % (sum(body) % 256))
        self.program.stdin.flush()
        told = ""
        while (got := self.packet())[:1] == b"O" and got != b"OK":
            told += bytes.fromhex(got[1:].decode()).decode()
        return got.decode(), told

    def monitor(self, line):
        got, told = self.ask("qRcmd," + line.encode().hex())
        assert got == "OK", (line, got)
        return told

    def leave(self):
        self.ask("D")
        self.program.stdin.close()
        assert self.program.wait() == 0
