"""Mail for the lists, and a transfer agent that gives each mail to any host until one has taken it."""

import dataclasses
import pathlib
import random
import socket
import threading
import time

from .host import Host

LONGEST = 20  # seconds for which a reply is waited for


@dataclasses.dataclass
class Mail:
    """A mail: its id, which stands in its Received line, the list, the envelope, and what it was answered by whom."""
    ident: str
    to: str
    sender: str
    recipient: str
    text: bytes
    reply: str = ''
    host: int = -1
    tries: int = 0
    began: float = 0
    took: float = 0  # seconds from the first try to the reply

    def is_taken(self) -> bool:
        return self.reply.startswith('250')


def mail(ident: str, to: str, rest: str, sender: str, subject: str = 'hello', body: str = 'hi') -> Mail:
    """A mail for LIST-REST, or for the list itself if the rest is empty."""
    recipient = f'{to}-{rest}@ex.org' if rest else f'{to}@ex.org'
    text = (f'Received: by mx.ex.org id {ident}\r\nFrom: {sender or "MAILER-DAEMON@m.net"}\r\nTo: {recipient}\r\nSubject: {subject}\r\n\r\n'
            f'{body}\r\n')
    return Mail(ident, to, sender, recipient, text.encode())


def transaction(where: pathlib.Path, given: Mail, patience: float = LONGEST) -> str:
    """What is replied at a socket to a mail, in one LMTP session of its own. No reply is an OSError, as when the mail was given and so many
    seconds went by."""
    with socket.socket(socket.AF_UNIX) as connection:
        connection.settimeout(LONGEST)
        connection.connect(str(where))
        with connection.makefile('rb') as replies:
            def said(words: str = '') -> str:
                if words:
                    connection.sendall(f'{words}\r\n'.encode())
                while (line := replies.readline())[3:4] == b'-':
                    pass
                if not line.endswith(b'\r\n'):
                    raise ConnectionError('it hung up')
                return line.decode('ascii', 'replace').strip()
            said()
            said('LHLO mx.ex.org')
            said(f'MAIL FROM:<{given.sender}>')
            reply = said(f'RCPT TO:<{given.recipient}>')
            if reply.startswith('250') and (reply := said('DATA')).startswith('354'):
                connection.sendall(given.text)
                connection.settimeout(patience)
                reply = said('.')
    return reply


class Post:
    """The transfer agent: what was given so far, and how long it may go on with what isn't taken."""

    def __init__(self, hosts: list[Host]) -> None:
        self.hosts, self.lock = hosts, threading.Lock()
        self.mails: list[Mail] = []
        self.over = threading.Event()  # what isn't taken by now isn't given any more

    def give(self, given: Mail, rng: random.Random) -> str:
        """Gives a mail to any host, until it is taken or refused for good. The answer is the last reply."""
        with self.lock:
            self.mails.append(given)
        given.began = time.monotonic()
        while not self.over.is_set():
            host = rng.choice(self.hosts)
            given.tries += 1
            try:
                # At times it hangs up too early, and doesn't hear whether the mail was taken.
                patience = rng.uniform(0.01, 0.5) if rng.random() < 0.1 else LONGEST
                given.reply, given.host = transaction(host.socket, given, patience), host.number
            except OSError:
                given.reply = ''
            if given.reply[:1] in ('2', '5'):
                break
            time.sleep(rng.uniform(0.05, 0.5))
        given.took = time.monotonic() - given.began
        return given.reply
