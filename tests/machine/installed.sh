# deploy/install on a running machine, instead of the package: before that is started anew the first
# hour goes as it does by the package.

top=$repo
version=none
. "$here/lib/machine.sh"
. "$here/lib/booted.sh"
boot_machine 'an install by hand on a running machine' || return
mkdir "$machine/root/source"
(cd "$repo" && cp -a admin deploy docs services tools web ./*.md "$machine/root/source/")
cp "$rooms" "$machine/root/built"
does 'an install by hand' 'source/deploy/install --program /root/built'
does 'its folders are there' \
  "sed -n 's/^d \([^ ]*\) .*/\1/p' /etc/tmpfiles.d/rooms.conf | xargs ls -d"
does 'the three commands' "$(block README.md 'runuser')"
does 'the first night' 'systemctl start rooms-nightly@office'
does 'has a backup' 'rooms-admin latest'
stop_machine
