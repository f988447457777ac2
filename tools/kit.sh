# Sourced by the tools that use Rattle's compilers: the kit's folder, this machine's processor, and the clang that rt
# compiles with. The kit's programs are for x86-64; another processor has to run them by an emulator.
# shellcheck shell=bash disable=SC2034
kit=$(dirname "$("${RT:-rt}" doc)")
machine=$(uname -m)
clang=$kit/toolchain/bin/clang
