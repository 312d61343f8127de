"""A transfer agent that is made of aiosmtpd."""

import asyncio

from aiosmtpd.controller import Controller, UnixSocketController
from aiosmtpd.smtp import SMTP, syntax

LONG = 900  # seconds: nothing depends on time, as a machine may be slow


class Protocol(SMTP):
    line_length_limit = 1 << 26

    @syntax('MAIL FROM: <address>', extended=' [SP <mail-parameters>]')
    async def smtp_MAIL(self, arg):
        self.session.is_named = 'XVERP=-=' in arg
        await super().smtp_MAIL(arg.replace(' XVERP=-=', ''))


def never(_):
    return False


class Sink:
    """Keeps what it is handed, and fails as it is told."""

    def __init__(self, where, verp=True):
        self.takes_verp = verp
        self.copies = []            # sender, recipient and content of each
        self.transactions = []      # recipients of each
        self.asked = []             # recipients that were proposed
        self.refuse, self.defer = set(), set()
        self.refuses_all, self.refusal = False, '550 5.1.1 No such user'
        self.most_errors = 1000     # after which it hangs up
        self.hang_up = 0            # how many transactions end in the middle
        self.refuse_to_take = never  # whether it hangs up when it has this mail
        self.hung = 0               # how often it did
        self.holds = never          # whether a transaction of these recipients, whose copies were kept, has no reply yet
        self.waiting = 0            # how many have none
        self.most_waiting = 0       # how many had none at once
        self.answered = 0           # how many have one
        self.controller = UnixSocketController(self, where) if isinstance(where, str) else Controller(self, *where)
        self.controller.ready_timeout = LONG
        self.controller.factory = lambda: Protocol(self, data_size_limit=None, hostname='sink', timeout=LONG)
        self.controller.start()

    def stop(self):
        self.controller.stop()

    def recipients(self):
        return sorted(recipient for _, recipient, _ in self.copies)

    async def handle_EHLO(self, server, session, envelope, hostname, responses):
        session.host_name, session.errors = hostname, 0
        return responses[:-1] + ['250-XVERP'] * self.takes_verp + responses[-1:]

    async def handle_RCPT(self, server, session, envelope, address, options):
        self.asked.append(address)
        if self.refuses_all or address in self.refuse or address in self.defer:
            session.errors += 1
            if session.errors > self.most_errors:
                server.transport.close()
                return '421 4.7.0 Too many errors'
            return '451 4.3.0 Later' if address in self.defer else self.refusal
        envelope.rcpt_tos.append(address)
        return '250 Ok'

    async def handle_DATA(self, server, session, envelope):
        if self.refuse_to_take(envelope):
            self.hung += 1
            server.transport.abort()
            return '421 Bye'
        if self.hang_up:
            self.hang_up -= 1
            server.transport.abort()
            return '421 Bye'
        self.keep(session, envelope)
        self.waiting += 1
        self.most_waiting = max(self.most_waiting, self.waiting)
        try:
            while self.holds(envelope.rcpt_tos):
                await asyncio.sleep(0.01)
        finally:
            self.waiting -= 1
        self.answered += 1
        return '250 Ok'

    def keep(self, session, envelope):
        self.transactions.append(list(envelope.rcpt_tos))
        for recipient in envelope.rcpt_tos:
            sender = envelope.mail_from
            if session.is_named:
                local, _, host = sender.rpartition('@')
                sender = f'{local}-{recipient.replace("@", "=")}@{host}'
            self.copies.append((sender, recipient, envelope.content))
