# tools/package: what it refuses, and what the package has in it.

top=$here/..
. "$here/lib/machine.sh"
can_package 'what the package has in it' || return
older=rooms_0.0.9_amd64.deb
packs() { # ARGUMENT ..
  "$top/tools/package" "$@" </dev/null >"$work/out" 2>"$work/err"
  status=$?
}

packs --program "$PWD/none"
told 'no program' 2 'no program'
packs --program "$rooms" --version 'one two'
told 'a version that is none' 2 'bad version'
packs --program "$rooms" "$PWD/none"
told 'no folder' 2 'no folder'
packs --other x
told 'an unknown argument' 2 'bad arguments'
cp /bin/sh ./other 2>/dev/null && chmod 755 other
packs --program "$PWD/other" --version 1
told 'another program' 1 'is not rooms'
packs --program "$rooms"
told 'a package' 0 "./$package"
mkdir again
packs --program "$rooms" again
told 'the same package again' 0 "again/$package"
same 'has the same bytes' "again/$package" "$package"
packs --program "$rooms" --version 0.0.9
told 'an older one' 0 "./$older"
holds 'nothing else is left' [ "$(ls)" = "$(printf '%s\n' again other "$older" "$package" | sort)" ]

dpkg-deb -x "$package" files
dpkg-deb -e "$package" control
units=usr/lib/systemd/system
docs=usr/share/doc/rooms
same 'pages are those of the repository' "files/$docs/docs/backup.md" "$repo/docs/backup.md"
for file in usr/bin/rooms usr/bin/rooms-import usr/bin/rooms-export usr/sbin/rooms-nightly \
  usr/sbin/rooms-restore usr/sbin/rooms-get \
  usr/sbin/rooms-add usr/sbin/rooms-setup usr/sbin/rooms-admin usr/sbin/rooms-doctor \
  usr/bin/rooms-handover usr/share/man/man8/rooms-doctor.8.gz usr/sbin/rooms-standby \
  usr/bin/rooms-admin usr/share/rooms/rooms_admin/__main__.py usr/share/man/man8/rooms-admin.8.gz \
  $units/rooms-standby@.service $units/rooms-standby@.timer usr/share/man/man8/rooms-standby.8.gz \
  usr/share/rooms/rooms_admin/site/template.py usr/share/rooms/site.conf.in usr/sbin/rooms-full \
  usr/share/rooms/tables/level_forms.js usr/share/rooms/tables/invisible_signs.js \
  $units/rooms-full@.service usr/share/man/man8/rooms-full.8.gz \
  usr/sbin/rooms-directory usr/share/rooms/room.conf.in usr/share/rooms/directory.apache \
  usr/share/rooms/signed-in $units/rooms-passwords.service $units/rooms-directory@.service \
  $units/rooms-directory@.timer usr/share/man/man8/rooms-directory.8.gz $units/rooms@.service \
  $units/rooms-nightly@.service $units/nginx.service.d/rooms.conf usr/lib/tmpfiles.d/rooms.conf \
  $units/rooms-nightly@.timer usr/share/rooms/page/index.html usr/share/man/man1/rooms.1.gz \
  usr/share/man/man8/rooms-add.8.gz usr/share/man/man8/rooms-setup.8.gz \
  usr/share/bash-completion/completions/rooms usr/share/bash-completion/completions/rooms-setup \
  usr/share/bash-completion/completions/rooms-nightly $docs/docs/operating.md $docs/CHANGELOG.md \
  $docs/copyright $units/rooms-door@.service usr/share/rooms/rooms_services/door/__main__.py \
  usr/share/rooms/door.conf.in usr/share/rooms/proxy.conf.in usr/share/rooms/earlier.conf.in \
  usr/share/rooms/proxied.conf.in usr/share/rooms/scgi.conf.in usr/share/rooms/page.conf.in \
  $units/rooms-door@.socket $units/rooms-wait@.service $units/rooms-wait@.socket \
  usr/share/rooms/rooms_services/wait.py \
  $units/rooms-would@.service $units/rooms-would.socket \
  $units/rooms-earlier.service $units/rooms-earlier.socket $units/rooms-nights.service \
  $units/rooms-nights.socket usr/share/rooms/rooms_services/earlier/judge.py \
  $units/rooms-picture.socket $units/rooms-picture@.service \
  usr/share/rooms/rooms_services/apart.py usr/share/rooms/rooms_services/picture.py; do
  holds "$file is in it" [ -s "files/$file" ]
done
same 'the program is the one that was built' files/usr/bin/rooms "$rooms"
holds 'no setting is a conffile, which no script may edit' \
  [ ! -e files/etc -a ! -e control/conffiles ]
dpkg-deb -f "$package" Recommends >found
holds 'a mail program is recommended, without which nobody is told of a failure' \
  grep -q 'mailx.*mail-transport-agent' found
holds "what has nginx's log go after two weeks is recommended" grep -q logrotate found
grep -rlE --exclude-dir=docs '/usr/local/(s?bin|lib|share)/rooms' files >found
: >nothing
same 'no file looks below /usr/local' found nothing
holds 'nothing is in a room' is_missing files/var
holds 'the kit or its absence is named' \
  grep -qE 'rattle-kit|unknown here' "files/$docs/README.proved"
holds 'and the program' \
  grep -qF "$(sha256sum <"$rooms" | cut -d ' ' -f 1)" "files/$docs/README.proved"
if has rt; then
  gzip -cd "files/$docs/README.licences.gz" >found
  for name in arrayvec clap httparse sqlite; do
    holds "the licence of $name is there" grep -qE "^([a-z_, ]*, )?$name(,|\$)" found
  done
  holds 'each as a whole' [ "$(grep -c '^THE SOFTWARE IS PROVIDED "AS IS"' found)" -ge 5 ]
else
  skip 'licences of libraries' 'rt is missing'
fi
for file in preinst postinst prerm postrm; do holds "$file can be read" sh -n "control/$file"; done
if has lintian; then
  (umask 022 && lintian --allow-root "$package") >"$work/out" 2>&1
  grep '^E:' "$work/out" >found || :
  same 'lintian has no error' found nothing
else
  skip 'what lintian says' 'lintian is missing'
fi
