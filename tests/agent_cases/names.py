"""A resolver for tests, on a port of loopback: it knows the TXT records and addresses that it is given."""

import socket
import threading


class Names:
    """Answers from records by name and kind. With None for these it never answers. `asked` has what was asked."""

    def __init__(self, records):
        import dns.message
        import dns.rcode
        import dns.rrset
        self.dns, self.records, self.asked = dns, records, []
        self.socket = socket.socket(socket.AF_INET, socket.SOCK_DGRAM)
        self.socket.bind(('127.0.0.1', 0))
        self.where = '127.0.0.1:%d' % self.socket.getsockname()[1]
        self.thread = threading.Thread(target=self.serve)
        self.thread.start()

    def serve(self):
        while True:
            asked, who = self.socket.recvfrom(4096)
            if not asked:
                return self.socket.close()
            query = self.dns.message.from_wire(asked)
            name, kind = query.question[0].name, self.dns.rdatatype.to_text(query.question[0].rdtype)
            self.asked.append((name.to_text(True), kind))
            if self.records is not None:
                self.socket.sendto(self.reply(query, name, kind).to_wire(), who)

    def reply(self, query, name, kind):
        reply = self.dns.message.make_response(query)
        found = self.records.get((name.to_text(True), kind))
        if found:
            texts = [f'"{each}"' for each in found] if kind == 'TXT' else found
            reply.answer.append(self.dns.rrset.from_text(name, 60, 'IN', kind, *texts))
        elif not any(known == name.to_text(True) for known, _ in self.records):
            reply.set_rcode(self.dns.rcode.NXDOMAIN)
        return reply

    def stop(self):
        with socket.socket(socket.AF_INET, socket.SOCK_DGRAM) as ending:
            ending.sendto(b'', self.socket.getsockname())
        self.thread.join()
