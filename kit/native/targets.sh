# To be sourced: what the library is compiled for.
# shellcheck shell=bash disable=SC2034
linux_targets=(arm64-linux armv7-linux riscv64-linux)
bare_targets=(cortex-m3 cortex-m4hf riscv32imc)

# Sets, for a target: triple and flags for the compiler; needs, what a program that links it must have; made, where the build leaves it.
# Bare triples for Arm say gnu, so that memcpy and memset keep these names.
describe() { # TARGET
    needs='memcpy memset' made=target/kit/$1/libkrossvil.a
    case $1 in
    x86-64) triple=x86_64-unknown-linux-gnu flags=() made=target/staticlib/libkrossvil.a ;; # as the toolchain writes it
    # No more of WebAssembly than this is used, whatever the compiler takes by itself.
    wasm) triple=wasm32-unknown-unknown flags=(-mcpu=mvp -msign-ext -mbulk-memory -mbulk-memory-opt) needs='' made=target/kit/krossvil.wasm ;;
    arm64-linux) triple=aarch64-unknown-linux-gnu flags=(-fPIC) needs=memset ;;
    armv7-linux) triple=armv7-unknown-linux-gnueabihf flags=(-fPIC -mfpu=vfpv3-d16) needs="__aeabi_uidivmod $needs" ;;
    riscv64-linux) triple=riscv64-unknown-linux-gnu flags=(-fPIC -march=rv64gc -mabi=lp64d) ;;
    cortex-m3) triple=thumbv7m-unknown-none-gnueabi flags=(-mcpu=cortex-m3) ;;
    cortex-m4hf) triple=thumbv7em-unknown-none-gnueabihf flags=(-mcpu=cortex-m4 -mfpu=fpv4-sp-d16 -mfloat-abi=hard) ;;
    riscv32imc) triple=riscv32-unknown-none-elf flags=(-march=rv32imc -mabi=ilp32) ;;
    *) stop "no target $1; there are: x86-64 wasm ${linux_targets[*]} ${bare_targets[*]}" ;;
    esac
}
