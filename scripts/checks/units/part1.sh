#!/bin/bash
# The first boot: from nothing to a service, a renewal, a restart, and a loss. See check_units.py.
part=1
# shellcheck source-path=SCRIPTDIR source=begin.sh
. /mnt/out/begin.sh
PROGRAM=/mnt/hipsd scripts/install.sh >/dev/null || wrong "install.sh"
systemd-sysusers && systemctl daemon-reload
mkdir -p /srv/survey && cp /mnt/out/survey.conf /srv/survey
install -d /var/lib/hipsd && ln -sn /srv/survey /var/lib/hipsd/survey0
systemctl enable --quiet --now hipsd@survey0
is 'active ' systemctl is-active hipsd@survey0
ready --unix-socket /run/hipsd/survey0 http://hipsd/properties

sed 's/hips[.]example[.]org/survey.your.org/' "$examples/nginx.conf" >/etc/nginx/conf.d/hipsd.conf
cp "$examples/hipsd.server.conf" /etc/nginx
rm -f /etc/nginx/sites-enabled/default
install -m 640 -o root -g www-data /dev/null /etc/nginx/hipsd.users
printf 'editor:%s\n' "$(openssl passwd -6 secret)" >>/etc/nginx/hipsd.users
systemctl enable --quiet --now nginx
is 200 code http://localhost/survey/properties
# Nobody else reaches hipsd or listens in its place, and there is no port for a page in a browser.
is 'drwxr-x--- hipsd www-data srw-rw---- hipsd www-data ' stat -c '%A %U %G' /run/hipsd /run/hipsd/survey0
is '000 curl 7 ' as nobody code --unix-socket /run/hipsd/survey0 http://hipsd/properties
is 200 as www-data code --unix-socket /run/hipsd/survey0 http://hipsd/properties
for user in nobody www-data; do is "ln: failed to create symbolic link '/run/hipsd/survey1': Permission denied " as "$user" ln -s /tmp/other /run/hipsd/survey1; done
is '' sh -c 'ss -Hltn | grep -v ":80 "'

is 201 code -u editor:secret -T /mnt/out/8.fits "http://localhost/edit/$(leaf 8)"
is 'published 1 ' curl -s -u editor:secret -X POST http://localhost/edit/publish
is 201 code -u editor:secret -T /mnt/out/9.fits "http://localhost/edit/$(leaf 9)"
systemctl start hipsd-backup || wrong "hipsd-backup.service"
says hipsd-backup 'verified 6'

# shellcheck disable=SC2119 # it finds both servers
rolls
is 'inactive active ' systemctl is-active hipsd@survey0 hipsd@survey1
is 'disabled enabled ' systemctl is-enabled hipsd@survey0 hipsd@survey1
is 'srw-rw---- hipsd www-data ' stat -c '%A %U %G' /run/hipsd/survey1
is 'NoNewPrivs: 1 Seccomp: 2 ' sed -nE 's/^(NoNewPrivs|Seccomp):\t/\1: /p' "/proc/$(systemctl show -P MainPID hipsd@survey1)/status"
is 200 code "http://localhost/survey/$(leaf 9)"
says hipsd@survey0 'drain.sh: /run/hipsd/survey0 ends, and with it the 2 edits since its start, 0 of them never published'
systemctl start hipsd-backup || wrong "hipsd-backup.service after a renewal"
says hipsd-backup 'verified 7'
systemctl start hipsd-renew || wrong "hipsd-renew.service"
says hipsd-renew 'unix:/run/hipsd/survey1 has taken 0 edits since its start, of 65536'

is 201 code -u editor:secret -T /mnt/out/10.fits "http://localhost/edit/$(leaf 10)"
systemctl restart hipsd@survey1
ready --unix-socket /run/hipsd/survey1 http://hipsd/properties
is 200 code http://localhost/survey/properties
says hipsd@survey1 'drain.sh: /run/hipsd/survey1 ends, and with it the 1 edits since its start, 1 of them never published'
systemctl enable --quiet --now hipsd-backup.timer hipsd-renew.timer

# Lost with its folder: the commands of OPERATING, 'After a loss', but for the name of the copy and its number of edits. The copy has
# leaves 8 and 9, the journal leaf 10 too; somebody without a journal has removed leaf 8, which no copy shows.
export HOME=/root HIPSD=http://localhost/edit HIPSD_JOURNAL=/root/journal
echo 'machine localhost login editor password secret' >/root/.netrc
edit() {
    "$examples/edit.sh" "$@" >/mnt/out/said 2>&1 || wrong "edit.sh $*: $(cat /mnt/out/said)"
}
edit put 8 /mnt/out/10.fits
edit publish
systemctl start hipsd-backup || wrong "hipsd-backup.service before a loss"
edit put 10 /mnt/out/10.fits
curl -s -u editor:secret -X DELETE "http://localhost/edit/$(leaf 8)"
rm -r "$(readlink -f /var/lib/hipsd/survey1)"/Norder*
systemctl kill -s KILL hipsd@survey1
sed -n '/^### After a loss$/,/^## /s/^   \( *[^ ].*\)$/\1/p' /usr/local/share/doc/hipsd/docs/OPERATING.md | grep -vx '```' >/tmp/loss
grep -cE '^(sudo systemctl st|sudo journalctl|name=|new=|export)' /tmp/loss | grep -qx 6 || wrong "the commands after a loss are others: $(cat /tmp/loss)"
printf '#!/bin/sh\nexec env "$@"\n' >/usr/local/bin/sudo
chmod 755 /usr/local/bin/sudo
journalctl --sync
copy=$(basename "$(readlink -f /var/lib/hipsd-backup/survey)")
# shellcheck disable=SC1090 # what OPERATING says
. <(sed -e "s/survey[.]20261129T094500Z/$copy/" -e 's/ 250 / 1 /' -e "s#examples/#$examples/#g" \
    -e '/^new=/i ready http://localhost/survey/properties' /tmp/loss) >/mnt/out/said 2>&1
grep -A 9 "copied: the peer's Survey-Prefix 1\b" /mnt/out/said | grep -qF "survey is $copy" || wrong "the copies aren't listed: $(cat /mnt/out/said)"
grep -qF '1 entries: 1 sent again, the others weren' /mnt/out/said || wrong "a replay after a loss: $(cat /mnt/out/said)"
is 'active active active ' systemctl is-active hipsd@survey1 hipsd-backup.timer hipsd-renew.timer
for number in 8 9 10; do is 200 code "http://localhost/survey/$(leaf $number)"; done
