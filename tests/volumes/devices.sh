# Block devices: loop devices, where they can be had.
# shellcheck shell=bash disable=SC2154

begin devices
random 512 >sector
if device=$(losetup --find --show disk.img 2>/dev/null); then
    undo+=("losetup --detach $device")
    on_device() { volumes "$1" "$device" "${headers[@]}" "${@:2}"; }
    expect 'a device' 0 "$(basename "$device"), 1.0 MiB" on_device show
    expect 'a write to a device' 0 'wrote hidden sector 5' on_device write hidden 5 sector
    expect 'a read of a device' 0 'read hidden sector 5' on_device read hidden 5 1 copy
    same 'a read of a device' copy sector
    dd if=sector of=expected.img bs=512 seek=1285 conv=notrunc status=none
    same 'a device' disk.img expected.img
    expect 'a header for a device' 0 "image: $device, 1.0 MiB" \
        volumes prepare "$device" outer device.header --magic TRUE
    same 'a header for a device' disk.img expected.img
    # Who looks at a device for a moment, as udev does, is waited for; who keeps it is not.
    flock --shared "$device" sleep 0.5 &
    expect 'a write beside a short look' 0 'wrote hidden' on_device write hidden 5 sector
    wait
    expect 'a write beside another recorder of a device' 2 'another recorder' \
        flock "$device" "$program" write "$device" "${headers[@]}" hidden 5 sector
    expect 'a write into the protected range of a device' 1 '(refusal 18)' on_device write outer 1024 sector
    # A file system on it is mounted; the headers are passed over, so that nothing else is in the way.
    mkdir mounted
    if mkfs.ext4 -q -F "$device" 2>/dev/null && mount -o ro "$device" mounted 2>/dev/null; then
        undo+=("umount ${work@Q}/devices/mounted")
        cp disk.img expected.img
        expect 'a write to a mounted device' 2 'in use: it is mounted' \
            on_device write --risk-wrong-disk outer 0 sector
        same 'a write to a mounted device' disk.img expected.img
        expect 'show of a mounted device' 0 'not on it' on_device show --risk-wrong-disk
    else
        skipped 'a mounted device (no file system can be made or mounted)'
    fi
else
    skipped 'block devices (no loop device can be had)'
fi
