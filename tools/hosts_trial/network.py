"""Machines that are network namespaces at one bridge. Each can be cut off from all others, or from one of them.

All of it stands in the network namespace of this process, which has to be one of its own.
"""

import pathlib
import subprocess

NOWHERE = '02:00:00:00:00:01'  # no machine has this address, so what is sent to it is lost without a word


def ip(*words: str) -> None:
    subprocess.run(['ip', *words], check=True)


class Network:
    def __init__(self, many: int) -> None:
        self.many = many

    def begin(self) -> None:
        """Makes the machines. The names of namespaces are those of this mount namespace alone."""
        pathlib.Path('/run/netns').mkdir(exist_ok=True)
        subprocess.run(['mount', '-t', 'tmpfs', 'none', '/run/netns'], check=True)
        ip('link', 'set', 'lo', 'up')
        ip('link', 'add', 'hosts', 'type', 'bridge')
        ip('address', 'add', '10.77.0.254/24', 'dev', 'hosts')
        ip('link', 'set', 'hosts', 'up')
        for machine in range(self.many):
            ip('netns', 'add', f'm{machine}')
            ip('link', 'add', f'v{machine}', 'type', 'veth', 'peer', 'name', 'eth0', 'netns', f'm{machine}')
            ip('link', 'set', f'v{machine}', 'master', 'hosts', 'up')
            ip('-n', f'm{machine}', 'address', 'add', f'{self.address(machine)}/24', 'dev', 'eth0')
            ip('-n', f'm{machine}', 'link', 'set', 'eth0', 'up')
            ip('-n', f'm{machine}', 'link', 'set', 'lo', 'up')

    @staticmethod
    def address(machine: int) -> str:
        return f'10.77.0.{machine + 1}'

    @staticmethod
    def within(machine: int) -> list[str]:
        """The command after which one of this machine's own stands."""
        return ['nsenter', f'--net=/run/netns/m{machine}']

    @staticmethod
    def cut(machine: int) -> None:
        """Pulls a machine's cable."""
        ip('link', 'set', f'v{machine}', 'down')

    @staticmethod
    def mend(machine: int) -> None:
        ip('link', 'set', f'v{machine}', 'up')

    def part(self, one: int, other: int) -> None:
        """Loses all that two machines send to each other. Each still reaches all others."""
        for machine, lost in ((one, other), (other, one)):
            ip('-n', f'm{machine}', 'neighbour', 'replace', self.address(lost), 'lladdr', NOWHERE, 'dev', 'eth0', 'nud', 'permanent')

    def join(self, one: int, other: int) -> None:
        for machine, lost in ((one, other), (other, one)):
            ip('-n', f'm{machine}', 'neighbour', 'delete', self.address(lost), 'dev', 'eth0')
