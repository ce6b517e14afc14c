# For checks by a Linux in an emulated machine, which source this file: `guest_kernel` and `guest_run`. The machine has the kernel and the tools of
# Debian's packages in a file system in memory, and images as its disks, which it can't write unless `guest_access` is readonly=off.

# What the kernel's modules are for: the disks, md and the device mapper.
guest_modules=(virtio_pci virtio_blk raid1 raid456 dm-mod)

# Fetches Debian's kernel for cloud machines and unpacks it into the folder `kernel`, with nothing installed; whether that went well.
guest_kernel() {
  local name
  name=$(apt-cache depends linux-image-cloud-amd64 2>/dev/null | sed -n 's/.*Depends: \(linux-image-[0-9].*\)/\1/p' | head -n 1)
  if [ -z "$name" ]; then
    apt-get update >/dev/null 2>&1
    name=$(apt-cache depends linux-image-cloud-amd64 2>/dev/null | sed -n 's/.*Depends: \(linux-image-[0-9].*\)/\1/p' | head -n 1)
  fi
  [ -n "$name" ] || return 1
  apt-get download "$name" >/dev/null 2>&1 || { apt-get update && apt-get download "$name"; } >/dev/null 2>&1 || return 1
  dpkg -x "$name"_*.deb kernel && depmod -b kernel "${name#linux-image-}"
}

# guest_tool NAME ROOT: puts a program and its libraries into a file system.
guest_tool() {
  local file library
  file=$(command -v "$1")
  cp -L "$file" "$2/sbin/"
  for library in $(ldd "$file" | grep -o '/[^ ]*'); do
    mkdir -p "$2$(dirname "$library")"
    cp -L "$library" "$2$library"
  done
}

# guest_root SCRIPT: the file system, in the folder `root`. Its first program loads the modules, runs the script and turns the machine off.
guest_root() {
  local release module kind file
  release=$(ls kernel/lib/modules)
  mkdir -p root/bin root/sbin root/modules
  cp "$(command -v busybox)" root/bin/
  guest_tool mdadm root
  guest_tool lvm root
  for file in ${guest_more[@]+"${guest_more[@]}"}; do guest_tool "$file" root; done
  for module in "${guest_modules[@]}"; do
    modprobe -d "$PWD/kernel" -S "$release" --show-depends "$module" | while read -r kind file _; do
      [ "$kind" != builtin ] || continue
      grep -qsx "${file##*/}" root/order || { cp "$file" root/modules/ && echo "${file##*/}" >>root/order; }
    done
  done
  cp "$1" root/script
  cat >root/init <<'END'
#!/bin/busybox sh
/bin/busybox mkdir -p /proc /sys /dev /run
/bin/busybox --install -s /bin
export PATH=/bin:/sbin
mount -t proc proc /proc
mount -t sysfs sysfs /sys
mount -t devtmpfs dev /dev
while read -r module; do insmod "/modules/$module"; done </order
sh /script
poweroff -f
END
  chmod +x root/init
  (cd root && find . | cpio -o -H newc --quiet | gzip -1) >root.gz
}

# guest_run SCRIPT IMAGE..: what a script prints on the machine, whose disks are /dev/vda and so on.
guest_run() {
  local image disks=()
  guest_root "$1"
  shift
  for image in "$@"; do disks+=(-drive "file=$image,if=virtio,format=raw,${guest_access:-readonly=on}"); done
  timeout 300 qemu-system-x86_64 -M q35 -m 512 -nographic -no-reboot -kernel kernel/boot/vmlinuz-* -initrd root.gz \
    -append 'console=ttyS0 quiet panic=-1' "${disks[@]}" </dev/null 2>&1 | tr -d '\r'
}
