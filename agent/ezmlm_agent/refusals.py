"""What the transfer agent is told for a list's answer."""

from . import program, requests
from .requests import Kind

SENTENCES = {
    'toobig': '552 5.3.4 The message is longer than this list takes.',
    'nosender': '550 5.7.1 The sender of the envelope is no address that this list can answer.',
    'looped': '554 5.4.6 The message came from a mailing list already.',
    'denied': '550 5.7.1 The sender may not post to this list.',
    'nosubject': '554 5.6.0 The message has no subject.',
    'command': '554 5.6.0 The subject is a command. Commands are addresses of their own: write to the list\'s -help address.',
    'notaddressed': '554 5.6.0 Neither To nor Cc names this list.',
    'usersonly': '550 5.7.2 Only those who are known to this list may post.',
    'badcookie': '550 5.7.1 The letters of this address are wrong or too old. Ask for new ones.',
    'gone': '550 5.7.1 The message that this address answers for waits no longer.',
    'private': '550 5.7.2 This list doesn\'t give this to its senders.',
    'full': '552 5.2.4 The list is full.',
    'notours': '550 5.1.1 The list has no such address.',
    'automatic': '550 5.7.1 This list takes no posts that a machine sent (Auto-Submitted).',
}
PRIVATE = {
    Kind.SUBSCRIBE: '550 5.7.2 Nobody joins this list by mail. Ask its owner to add you: write to the list\'s -owner address.',
    Kind.MEMBERS: '550 5.7.2 Only moderators may see the members of this list.',
    Kind.ARCHIVE: '550 5.7.2 The archive of this list isn\'t open to your address. If you are a member, write from the address that is.',
}
CROWDED = '452 4.3.1 Too much mail waits; later.'
SETS = '550 5.7.2 Only moderators may change who may post to this list.'


def refusal_for(word: str, rest: bytes | None) -> str:
    """The reply by which mail for LOCAL-REST@HOST, or LOCAL@HOST for None, is refused with a word that has a sentence."""
    request = requests.read(rest)
    if word == 'private' and request.set in (b'allow', b'deny') and request.kind is not Kind.MEMBERS:
        return SETS
    if word == 'private':
        return PRIVATE.get(request.kind, SENTENCES[word])
    return SENTENCES[word]


def reply_for(answer: program.Answer, rest: bytes | None) -> str:
    """The reply for an answer of the list, or for why there is none."""
    if answer.is_answer and answer.status == 0:
        return f'250 2.0.0 {answer.words}'
    if answer.is_answer and answer.words in SENTENCES:
        return refusal_for(answer.words, rest)
    if answer.words == 'crowded':
        return CROWDED
    return f'451 4.3.0 {answer.status} {answer.words}'
