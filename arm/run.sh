#!/bin/sh
# run.sh SCENES SEED: asks two machines that QEMU emulates, one without FEAT_XNX and one with it. With INSTALL=1 a missing QEMU is installed
# from Debian's packages. Where it is not there, no machine is asked.
set -eu
cd "$(dirname "$0")/.."
scenes=$1 seed=$2
qemu=qemu-system-aarch64

install_qemu() {
    timeout 120 apt-get update && timeout 300 apt-get install -y --no-install-recommends qemu-system-arm
}
if ! command -v $qemu >/dev/null; then
    if [ "${INSTALL:-}" != 1 ]; then
        echo "no QEMU here: the Arm machine was not asked; make arm installs it"
        exit 0
    fi
    install_qemu >target/arm/install.log 2>&1 || true
    command -v $qemu >/dev/null || {
        echo "no QEMU here, and it could not be installed: the Arm machine was not asked"
        exit 0
    }
fi
$qemu --version | head -1

# on CPU RUN SCENES: what the run prints; it fails if the run does.
on() {
    timeout 1200 $qemu -machine virt,virtualization=on -cpu "$1" -m 3G -nic none -display none -serial none -monitor none -chardev stdio,id=out \
        -semihosting-config "enable=on,target=native,chardev=out,arg=judge,arg=$2,arg=$3,arg=$seed" -kernel target/arm/judge.elf
}

here=$(target/arm/here "$scenes" "$seed")
for cpu in cortex-a57 max; do
    there=$(on $cpu words "$scenes")
    [ "$here" = "$there" ] || { echo "$cpu: the library answers otherwise than here: $there, not $here"; exit 1; }
    echo "$cpu: words: $scenes scenes answered as here, digest $here"
    for run in emitted wild flipped; do
        printf '%s: ' $cpu
        on $cpu $run "$scenes" || { echo "$cpu: the run $run failed"; exit 1; }
    done
done
