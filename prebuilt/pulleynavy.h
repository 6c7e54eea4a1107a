/* SPDX-License-Identifier: Apache-2.0 OR MIT */
#include "../crates/wasm_c/include/pulleynavy.h"
