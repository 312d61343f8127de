"""The settings with which tools/try-web starts each server: the recipe's lines, and beside them what else such a host has, as PHP, CGI and SSI."""

from __future__ import annotations

import os
import pathlib
import re

TOP = pathlib.Path(__file__).resolve().parent.parent
RECIPE = (TOP / 'recipes/web.md').read_text()
MODULES = pathlib.Path('/usr/lib/apache2/modules')
APACHE = ['authz_core', 'alias', 'dir', 'mime', 'headers', 'proxy', 'proxy_http', 'negotiation']
# What a host of Apache's may have for other sites, as Debian's files of its modules have it, and what old guides tell to write.
APACHE_OTHERS = '''<IfModule mod_include.c>
AddType text/html .shtml
AddOutputFilter INCLUDES .shtml
</IfModule>
AddHandler cgi-script .cgi .phtml
AddHandler type-map var
AddEncoding x-gzip .gz
'''
MOD_PHP = '''<FilesMatch ".+\\.ph(?:ar|p|tml)$">
SetHandler application/x-httpd-php
</FilesMatch>
AddHandler application/x-httpd-php .php .phtml
'''
FPM = '''<FilesMatch ".+\\.ph(?:ar|p|tml)$">
<If "-f %{{REQUEST_FILENAME}}">
SetHandler "proxy:unix:{place}/php|fcgi://localhost"
</If>
</FilesMatch>
AddHandler "proxy:unix:{place}/php|fcgi://localhost" .php
'''
PASS_MATCH = 'ProxyPassMatch "^/(.*\\.ph(?:ar|p|tml))(/.*)?$" "unix:{place}/php|fcgi://localhost{place}/root/"\n'
NGINX_OTHERS = '''ssi on;
location ~ \\.(php|phtml|phar)($|/) {{
    fastcgi_pass unix:{place}/php;
    fastcgi_param SCRIPT_FILENAME $document_root$fastcgi_script_name;
    fastcgi_param REQUEST_METHOD $request_method;
    fastcgi_param QUERY_STRING $query_string;
    fastcgi_param REDIRECT_STATUS 200;
}}
'''
LIGHTTPD_OTHERS = '''fastcgi.server = ( ".php" => (( "bin-path" => "/usr/bin/php-cgi", "socket" => "{place}/lighttpd-php", "max-procs" => 1 )) )
cgi.assign = ( ".cgi" => "", ".phtml" => "/usr/bin/php-cgi", ".phar" => "/usr/bin/php-cgi" )
ssi.extension = ( ".shtml", ".html" )
'''
# A host by its name: its server, and what it has beside the recipe's lines.
HOSTS = {
    'nginx': ('nginx', ''), 'nginx with PHP and SSI': ('nginx', NGINX_OTHERS), 'Apache': ('Apache', ''), 'Apache with mod_php, CGI and SSI': ('Apache', MOD_PHP + APACHE_OTHERS),
    'Apache with php-fpm, CGI and SSI': ('Apache', FPM + APACHE_OTHERS), 'Apache with ProxyPassMatch to PHP': ('Apache', PASS_MATCH), 'lighttpd': ('lighttpd', ''),
    'lighttpd with PHP, CGI and SSI': ('lighttpd', LIGHTTPD_OTHERS),
}
PHP = ['/usr/bin/php-cgi', '-b']  # and the path of its socket


def shown(name: str) -> str:
    """The lines that the recipe shows under a name, '' if it shows none."""
    match = re.search(f'<!-- shown: {re.escape(name)} -->\n```[a-z]*\n(.*?)```', RECIPE, re.DOTALL)
    return match[1] if match else ''


def rules(name: str, place: pathlib.Path) -> str:
    """The recipe's lines under a name, with the trial's paths. The web folder is below the document root, as it is on a host that minds neither."""
    return shown(name).replace('/var/www', f'{place}/root').replace('/run/ezmlm-site/search', f'{place}/socket')


def settings_of(host: str, place: pathlib.Path, port: int) -> tuple[list[str], str]:
    """The words that start a host's server in the foreground, and the settings that stand in the file of its name."""
    server, others = HOSTS[host]
    others = others.format(place=place) if '{place}' in others else others
    return {'nginx': nginx, 'Apache': apache, 'lighttpd': lighttpd}[server](others, place, port)


def nginx(others: str, place: pathlib.Path, port: int) -> tuple[list[str], str]:
    paths = ' '.join(f'{kind}_temp_path {place}/tmp;' for kind in ('client_body', 'proxy', 'fastcgi', 'uwsgi', 'scgi'))
    return (['/usr/sbin/nginx', '-c', f'{place}/nginx.conf'],
            f'daemon off; pid {place}/nginx.pid; error_log {place}/nginx.log; user root; events {{}} http {{ access_log off; {paths}\n{rules("nginx limit", place)}\n'
            f'server {{ listen 127.0.0.1:{port}; listen [::1]:{port}; root {place}/root;\n{others}\n{rules("nginx search", place)}\n{rules("nginx", place)}\n}} }}\n')


def apache(others: str, place: pathlib.Path, port: int) -> tuple[list[str], str]:
    """mod_php wants the module mpm_prefork; with it the others stand before the recipe's lines, as files of modules do on Debian."""
    names = [*APACHE, 'mpm_prefork' if 'x-httpd-php' in others else 'mpm_event']
    if others:
        names += ['cgi' if 'x-httpd-php' in others else 'cgid', 'include', 'proxy_fcgi', 'actions']
    loads = [f'LoadModule {name}_module {MODULES}/mod_{name}.so' for name in names]
    if 'x-httpd-php' in others:
        loads.append(f'LoadModule php_module {MODULES}/libphp8.2.so')
    socket = f'ScriptSock {place}/cgid\n' if 'cgid' in names else ''
    everywhere = f'<Directory {place}/root>\nRequire all granted\nOptions +ExecCGI +Includes +Indexes +MultiViews\nAllowOverride All\n</Directory>\n' if others else ''
    return (['/usr/sbin/apache2', '-D', 'FOREGROUND', '-f', f'{place}/Apache.conf'],
            '\n'.join(loads) + f'\nServerName localhost\nListen 127.0.0.1:{port}\nListen [::1]:{port}\nPidFile {place}/apache.pid\nErrorLog {place}/apache.log\n'
            f'DefaultRuntimeDir {place}\n{socket}TypesConfig /etc/mime.types\nUser www-data\nGroup www-data\nDocumentRoot {place}/root\n{everywhere}'
            f'{others}\n{rules("Apache", place)}\n{rules("Apache search", place)}\n')


def lighttpd(others: str, place: pathlib.Path, port: int) -> tuple[list[str], str]:
    names = ['redirect', 'alias', 'setenv', 'proxy', *(['fastcgi', 'cgi', 'ssi'] if others else [])]
    modules = ', '.join(f'"mod_{name}"' for name in names)
    return (['/usr/sbin/lighttpd', '-D', '-f', f'{place}/lighttpd.conf'],
            f'server.modules = ( {modules} )\nserver.bind = "127.0.0.1"\nserver.port = {port}\nserver.document-root = "{place}/root"\n$SERVER["socket"] == "[::1]:{port}" {{}}\n'
            f'server.errorlog = "{place}/lighttpd.log"\n{others}\n{rules("lighttpd", place)}\n{rules("lighttpd search", place)}\n')


def missing(host: str) -> str:
    """What a host of the trial lacks on this machine, '' if it has all."""
    server, others = HOSTS[host]
    wanted = [{'nginx': '/usr/sbin/nginx', 'Apache': '/usr/sbin/apache2', 'lighttpd': '/usr/sbin/lighttpd'}[server]]
    if others:
        wanted += ['/usr/bin/php-cgi', *([str(MODULES / 'libphp8.2.so')] if 'x-httpd-php' in others else [])]
    return ', '.join(path for path in wanted if not os.access(path, os.R_OK))
