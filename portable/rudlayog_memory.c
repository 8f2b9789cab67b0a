/* Rudlayog: the memory with its storage service in C. dist/portable made this file of the proved library; do not change it by hand.
 * portable/README.md says how to compile it, and docs/TRUST.md what stands unproved between the proof and it.
 *
 * Sources: 9b31e49542a1d8a56175a88084cdcfca8cf516dc7ba2dc183a3004303275c666
 * Toolchain: rattle-kit-13f logic dac8208d650f15bf
 *
 * SPDX-License-Identifier: MIT OR Apache-2.0
 *
 * Copyright (c) 2026 The Rudlayog developers
 *
 * Permission is hereby granted, free of charge, to any person obtaining a copy
 * of this software and associated documentation files (the "Software"), to deal
 * in the Software without restriction, including without limitation the rights
 * to use, copy, modify, merge, publish, distribute, sublicense, and/or sell
 * copies of the Software, and to permit persons to whom the Software is
 * furnished to do so, subject to the following conditions:
 *
 * The above copyright notice and this permission notice shall be included in all
 * copies or substantial portions of the Software.
 *
 * THE SOFTWARE IS PROVIDED "AS IS", WITHOUT WARRANTY OF ANY KIND, EXPRESS OR
 * IMPLIED, INCLUDING BUT NOT LIMITED TO THE WARRANTIES OF MERCHANTABILITY,
 * FITNESS FOR A PARTICULAR PURPOSE AND NONINFRINGEMENT. IN NO EVENT SHALL THE
 * AUTHORS OR COPYRIGHT HOLDERS BE LIABLE FOR ANY CLAIM, DAMAGES OR OTHER
 * LIABILITY, WHETHER IN AN ACTION OF CONTRACT, TORT OR OTHERWISE, ARISING FROM,
 * OUT OF OR IN CONNECTION WITH THE SOFTWARE OR THE USE OR OTHER DEALINGS IN THE
 * SOFTWARE.
 *
 * Third-party notices of Rudlayog
 *
 * Rudlayog itself has the licence MIT or Apache-2.0, at your choice (LICENSE-MIT, LICENSE-APACHE). What is built of it
 * also stands on crates of the Rattle kit. Most of these follow Rust crates of the same names (fast_float: fast-float2;
 * ryu: ryu and zmij), whose licences stand below.
 *
 * In the program:
 *
 *   arrayvec, atomic_blocks, atomic_table, circular_buffer, clap, core, crossbeam_queue, crossbeam_utils, csv,
 *   fast_float, hex, io, itoa, libc, memchr, os, ryu, serde, std, std_alloc, std_collections, std_heap, std_io, strsim,
 *   thiserror, toml, toml_datetime, toml_parser, toml_writer
 *
 * In the libraries for C and Python and the planner's page:
 *
 *   arrayvec, circular_buffer, core, csv, fast_float, hex, io, itoa, libc, memchr, os, ryu, serde, std, std_alloc,
 *   std_collections, std_heap, std_io, thiserror, toml, toml_datetime, toml_parser, toml_writer
 *
 * The kit has no licence text for these crates of its own:
 *
 *   atomic_blocks, atomic_table, core, io, libc, os, std, std_alloc, std_collections, std_heap, std_io
 *
 * ----------------------------------------------------------------------------------------------------------------------
 * arrayvec
 * ----------------------------------------------------------------------------------------------------------------------
 *
 * Copyright (c) Ulrik Sverdrup "bluss" 2015-2023
 *
 * Permission is hereby granted, free of charge, to any
 * person obtaining a copy of this software and associated
 * documentation files (the "Software"), to deal in the
 * Software without restriction, including without
 * limitation the rights to use, copy, modify, merge,
 * publish, distribute, sublicense, and/or sell copies of
 * the Software, and to permit persons to whom the Software
 * is furnished to do so, subject to the following
 * conditions:
 *
 * The above copyright notice and this permission notice
 * shall be included in all copies or substantial portions
 * of the Software.
 *
 * THE SOFTWARE IS PROVIDED "AS IS", WITHOUT WARRANTY OF
 * ANY KIND, EXPRESS OR IMPLIED, INCLUDING BUT NOT LIMITED
 * TO THE WARRANTIES OF MERCHANTABILITY, FITNESS FOR A
 * PARTICULAR PURPOSE AND NONINFRINGEMENT. IN NO EVENT
 * SHALL THE AUTHORS OR COPYRIGHT HOLDERS BE LIABLE FOR ANY
 * CLAIM, DAMAGES OR OTHER LIABILITY, WHETHER IN AN ACTION
 * OF CONTRACT, TORT OR OTHERWISE, ARISING FROM, OUT OF OR
 * IN CONNECTION WITH THE SOFTWARE OR THE USE OR OTHER
 * DEALINGS IN THE SOFTWARE.
 *
 * ----------------------------------------------------------------------------------------------------------------------
 * circular_buffer
 * ----------------------------------------------------------------------------------------------------------------------
 *
 * Copyright © 2023, 2024 Andrea Corbellini and contributors
 * All rights reserved.
 *
 * Redistribution and use in source and binary forms, with or without
 * modification, are permitted provided that the following conditions are met:
 *
 * 1. Redistributions of source code must retain the above copyright notice, this
 *    list of conditions and the following disclaimer.
 *
 * 2. Redistributions in binary form must reproduce the above copyright notice,
 *    this list of conditions and the following disclaimer in the documentation
 *    and/or other materials provided with the distribution.
 *
 * 3. Neither the name of the copyright holder nor the names of its contributors
 *    may be used to endorse or promote products derived from this software
 *    without specific prior written permission.
 *
 * THIS SOFTWARE IS PROVIDED BY THE COPYRIGHT HOLDERS AND CONTRIBUTORS “AS IS” AND
 * ANY EXPRESS OR IMPLIED WARRANTIES, INCLUDING, BUT NOT LIMITED TO, THE IMPLIED
 * WARRANTIES OF MERCHANTABILITY AND FITNESS FOR A PARTICULAR PURPOSE ARE
 * DISCLAIMED. IN NO EVENT SHALL THE COPYRIGHT HOLDER OR CONTRIBUTORS BE LIABLE
 * FOR ANY DIRECT, INDIRECT, INCIDENTAL, SPECIAL, EXEMPLARY, OR CONSEQUENTIAL
 * DAMAGES (INCLUDING, BUT NOT LIMITED TO, PROCUREMENT OF SUBSTITUTE GOODS OR
 * SERVICES; LOSS OF USE, DATA, OR PROFITS; OR BUSINESS INTERRUPTION) HOWEVER
 * CAUSED AND ON ANY THEORY OF LIABILITY, WHETHER IN CONTRACT, STRICT LIABILITY,
 * OR TORT (INCLUDING NEGLIGENCE OR OTHERWISE) ARISING IN ANY WAY OUT OF THE USE
 * OF THIS SOFTWARE, EVEN IF ADVISED OF THE POSSIBILITY OF SUCH DAMAGE.
 *
 * ----------------------------------------------------------------------------------------------------------------------
 * clap, toml, toml_datetime, toml_parser, toml_writer
 * ----------------------------------------------------------------------------------------------------------------------
 *
 * Copyright (c) Individual contributors
 *
 * Permission is hereby granted, free of charge, to any person obtaining a copy
 * of this software and associated documentation files (the "Software"), to deal
 * in the Software without restriction, including without limitation the rights
 * to use, copy, modify, merge, publish, distribute, sublicense, and/or sell
 * copies of the Software, and to permit persons to whom the Software is
 * furnished to do so, subject to the following conditions:
 *
 * The above copyright notice and this permission notice shall be included in all
 * copies or substantial portions of the Software.
 *
 * THE SOFTWARE IS PROVIDED "AS IS", WITHOUT WARRANTY OF ANY KIND, EXPRESS OR
 * IMPLIED, INCLUDING BUT NOT LIMITED TO THE WARRANTIES OF MERCHANTABILITY,
 * FITNESS FOR A PARTICULAR PURPOSE AND NONINFRINGEMENT. IN NO EVENT SHALL THE
 * AUTHORS OR COPYRIGHT HOLDERS BE LIABLE FOR ANY CLAIM, DAMAGES OR OTHER
 * LIABILITY, WHETHER IN AN ACTION OF CONTRACT, TORT OR OTHERWISE, ARISING FROM,
 * OUT OF OR IN CONNECTION WITH THE SOFTWARE OR THE USE OR OTHER DEALINGS IN THE
 * SOFTWARE.
 *
 * ----------------------------------------------------------------------------------------------------------------------
 * crossbeam_queue, crossbeam_utils
 * ----------------------------------------------------------------------------------------------------------------------
 *
 * The MIT License (MIT)
 *
 * Copyright (c) 2019 The Crossbeam Project Developers
 *
 * Permission is hereby granted, free of charge, to any
 * person obtaining a copy of this software and associated
 * documentation files (the "Software"), to deal in the
 * Software without restriction, including without
 * limitation the rights to use, copy, modify, merge,
 * publish, distribute, sublicense, and/or sell copies of
 * the Software, and to permit persons to whom the Software
 * is furnished to do so, subject to the following
 * conditions:
 *
 * The above copyright notice and this permission notice
 * shall be included in all copies or substantial portions
 * of the Software.
 *
 * THE SOFTWARE IS PROVIDED "AS IS", WITHOUT WARRANTY OF
 * ANY KIND, EXPRESS OR IMPLIED, INCLUDING BUT NOT LIMITED
 * TO THE WARRANTIES OF MERCHANTABILITY, FITNESS FOR A
 * PARTICULAR PURPOSE AND NONINFRINGEMENT. IN NO EVENT
 * SHALL THE AUTHORS OR COPYRIGHT HOLDERS BE LIABLE FOR ANY
 * CLAIM, DAMAGES OR OTHER LIABILITY, WHETHER IN AN ACTION
 * OF CONTRACT, TORT OR OTHERWISE, ARISING FROM, OUT OF OR
 * IN CONNECTION WITH THE SOFTWARE OR THE USE OR OTHER
 * DEALINGS IN THE SOFTWARE.
 *
 * ----------------------------------------------------------------------------------------------------------------------
 * csv, memchr
 * ----------------------------------------------------------------------------------------------------------------------
 *
 * The MIT License (MIT)
 *
 * Copyright (c) 2015 Andrew Gallant
 *
 * Permission is hereby granted, free of charge, to any person obtaining a copy
 * of this software and associated documentation files (the "Software"), to deal
 * in the Software without restriction, including without limitation the rights
 * to use, copy, modify, merge, publish, distribute, sublicense, and/or sell
 * copies of the Software, and to permit persons to whom the Software is
 * furnished to do so, subject to the following conditions:
 *
 * The above copyright notice and this permission notice shall be included in
 * all copies or substantial portions of the Software.
 *
 * THE SOFTWARE IS PROVIDED "AS IS", WITHOUT WARRANTY OF ANY KIND, EXPRESS OR
 * IMPLIED, INCLUDING BUT NOT LIMITED TO THE WARRANTIES OF MERCHANTABILITY,
 * FITNESS FOR A PARTICULAR PURPOSE AND NONINFRINGEMENT. IN NO EVENT SHALL THE
 * AUTHORS OR COPYRIGHT HOLDERS BE LIABLE FOR ANY CLAIM, DAMAGES OR OTHER
 * LIABILITY, WHETHER IN AN ACTION OF CONTRACT, TORT OR OTHERWISE, ARISING FROM,
 * OUT OF OR IN CONNECTION WITH THE SOFTWARE OR THE USE OR OTHER DEALINGS IN
 * THE SOFTWARE.
 *
 * ----------------------------------------------------------------------------------------------------------------------
 * fast_float, itoa, ryu, serde, thiserror
 * ----------------------------------------------------------------------------------------------------------------------
 *
 * Permission is hereby granted, free of charge, to any
 * person obtaining a copy of this software and associated
 * documentation files (the "Software"), to deal in the
 * Software without restriction, including without
 * limitation the rights to use, copy, modify, merge,
 * publish, distribute, sublicense, and/or sell copies of
 * the Software, and to permit persons to whom the Software
 * is furnished to do so, subject to the following
 * conditions:
 *
 * The above copyright notice and this permission notice
 * shall be included in all copies or substantial portions
 * of the Software.
 *
 * THE SOFTWARE IS PROVIDED "AS IS", WITHOUT WARRANTY OF
 * ANY KIND, EXPRESS OR IMPLIED, INCLUDING BUT NOT LIMITED
 * TO THE WARRANTIES OF MERCHANTABILITY, FITNESS FOR A
 * PARTICULAR PURPOSE AND NONINFRINGEMENT. IN NO EVENT
 * SHALL THE AUTHORS OR COPYRIGHT HOLDERS BE LIABLE FOR ANY
 * CLAIM, DAMAGES OR OTHER LIABILITY, WHETHER IN AN ACTION
 * OF CONTRACT, TORT OR OTHERWISE, ARISING FROM, OUT OF OR
 * IN CONNECTION WITH THE SOFTWARE OR THE USE OR OTHER
 * DEALINGS IN THE SOFTWARE.
 *
 * ----------------------------------------------------------------------------------------------------------------------
 * hex
 * ----------------------------------------------------------------------------------------------------------------------
 *
 * Copyright (c) 2013-2014 The Rust Project Developers.
 * Copyright (c) 2015-2020 The rust-hex Developers
 *
 * Permission is hereby granted, free of charge, to any person obtaining a copy
 * of this software and associated documentation files (the "Software"), to deal
 * in the Software without restriction, including without limitation the rights
 * to use, copy, modify, merge, publish, distribute, sublicense, and/or sell
 * copies of the Software, and to permit persons to whom the Software is
 * furnished to do so, subject to the following conditions:
 *
 * The above copyright notice and this permission notice shall be included in all
 * copies or substantial portions of the Software.
 *
 * THE SOFTWARE IS PROVIDED "AS IS", WITHOUT WARRANTY OF ANY KIND, EXPRESS OR
 * IMPLIED, INCLUDING BUT NOT LIMITED TO THE WARRANTIES OF MERCHANTABILITY,
 * FITNESS FOR A PARTICULAR PURPOSE AND NONINFRINGEMENT. IN NO EVENT SHALL THE
 * AUTHORS OR COPYRIGHT HOLDERS BE LIABLE FOR ANY CLAIM, DAMAGES OR OTHER
 * LIABILITY, WHETHER IN AN ACTION OF CONTRACT, TORT OR OTHERWISE, ARISING FROM,
 * OUT OF OR IN CONNECTION WITH THE SOFTWARE OR THE USE OR OTHER DEALINGS IN THE
 * SOFTWARE.
 *
 * ----------------------------------------------------------------------------------------------------------------------
 * ryu
 * ----------------------------------------------------------------------------------------------------------------------
 *
 *                               Apache License
 *                         Version 2.0, January 2004
 *                      http://www.apache.org/licenses/
 *
 * TERMS AND CONDITIONS FOR USE, REPRODUCTION, AND DISTRIBUTION
 *
 * 1. Definitions.
 *
 *    "License" shall mean the terms and conditions for use, reproduction,
 *    and distribution as defined by Sections 1 through 9 of this document.
 *
 *    "Licensor" shall mean the copyright owner or entity authorized by
 *    the copyright owner that is granting the License.
 *
 *    "Legal Entity" shall mean the union of the acting entity and all
 *    other entities that control, are controlled by, or are under common
 *    control with that entity. For the purposes of this definition,
 *    "control" means (i) the power, direct or indirect, to cause the
 *    direction or management of such entity, whether by contract or
 *    otherwise, or (ii) ownership of fifty percent (50%) or more of the
 *    outstanding shares, or (iii) beneficial ownership of such entity.
 *
 *    "You" (or "Your") shall mean an individual or Legal Entity
 *    exercising permissions granted by this License.
 *
 *    "Source" form shall mean the preferred form for making modifications,
 *    including but not limited to software source code, documentation
 *    source, and configuration files.
 *
 *    "Object" form shall mean any form resulting from mechanical
 *    transformation or translation of a Source form, including but
 *    not limited to compiled object code, generated documentation,
 *    and conversions to other media types.
 *
 *    "Work" shall mean the work of authorship, whether in Source or
 *    Object form, made available under the License, as indicated by a
 *    copyright notice that is included in or attached to the work
 *    (an example is provided in the Appendix below).
 *
 *    "Derivative Works" shall mean any work, whether in Source or Object
 *    form, that is based on (or derived from) the Work and for which the
 *    editorial revisions, annotations, elaborations, or other modifications
 *    represent, as a whole, an original work of authorship. For the purposes
 *    of this License, Derivative Works shall not include works that remain
 *    separable from, or merely link (or bind by name) to the interfaces of,
 *    the Work and Derivative Works thereof.
 *
 *    "Contribution" shall mean any work of authorship, including
 *    the original version of the Work and any modifications or additions
 *    to that Work or Derivative Works thereof, that is intentionally
 *    submitted to Licensor for inclusion in the Work by the copyright owner
 *    or by an individual or Legal Entity authorized to submit on behalf of
 *    the copyright owner. For the purposes of this definition, "submitted"
 *    means any form of electronic, verbal, or written communication sent
 *    to the Licensor or its representatives, including but not limited to
 *    communication on electronic mailing lists, source code control systems,
 *    and issue tracking systems that are managed by, or on behalf of, the
 *    Licensor for the purpose of discussing and improving the Work, but
 *    excluding communication that is conspicuously marked or otherwise
 *    designated in writing by the copyright owner as "Not a Contribution."
 *
 *    "Contributor" shall mean Licensor and any individual or Legal Entity
 *    on behalf of whom a Contribution has been received by Licensor and
 *    subsequently incorporated within the Work.
 *
 * 2. Grant of Copyright License. Subject to the terms and conditions of
 *    this License, each Contributor hereby grants to You a perpetual,
 *    worldwide, non-exclusive, no-charge, royalty-free, irrevocable
 *    copyright license to reproduce, prepare Derivative Works of,
 *    publicly display, publicly perform, sublicense, and distribute the
 *    Work and such Derivative Works in Source or Object form.
 *
 * 3. Grant of Patent License. Subject to the terms and conditions of
 *    this License, each Contributor hereby grants to You a perpetual,
 *    worldwide, non-exclusive, no-charge, royalty-free, irrevocable
 *    (except as stated in this section) patent license to make, have made,
 *    use, offer to sell, sell, import, and otherwise transfer the Work,
 *    where such license applies only to those patent claims licensable
 *    by such Contributor that are necessarily infringed by their
 *    Contribution(s) alone or by combination of their Contribution(s)
 *    with the Work to which such Contribution(s) was submitted. If You
 *    institute patent litigation against any entity (including a
 *    cross-claim or counterclaim in a lawsuit) alleging that the Work
 *    or a Contribution incorporated within the Work constitutes direct
 *    or contributory patent infringement, then any patent licenses
 *    granted to You under this License for that Work shall terminate
 *    as of the date such litigation is filed.
 *
 * 4. Redistribution. You may reproduce and distribute copies of the
 *    Work or Derivative Works thereof in any medium, with or without
 *    modifications, and in Source or Object form, provided that You
 *    meet the following conditions:
 *
 *    (a) You must give any other recipients of the Work or
 *        Derivative Works a copy of this License; and
 *
 *    (b) You must cause any modified files to carry prominent notices
 *        stating that You changed the files; and
 *
 *    (c) You must retain, in the Source form of any Derivative Works
 *        that You distribute, all copyright, patent, trademark, and
 *        attribution notices from the Source form of the Work,
 *        excluding those notices that do not pertain to any part of
 *        the Derivative Works; and
 *
 *    (d) If the Work includes a "NOTICE" text file as part of its
 *        distribution, then any Derivative Works that You distribute must
 *        include a readable copy of the attribution notices contained
 *        within such NOTICE file, excluding those notices that do not
 *        pertain to any part of the Derivative Works, in at least one
 *        of the following places: within a NOTICE text file distributed
 *        as part of the Derivative Works; within the Source form or
 *        documentation, if provided along with the Derivative Works; or,
 *        within a display generated by the Derivative Works, if and
 *        wherever such third-party notices normally appear. The contents
 *        of the NOTICE file are for informational purposes only and
 *        do not modify the License. You may add Your own attribution
 *        notices within Derivative Works that You distribute, alongside
 *        or as an addendum to the NOTICE text from the Work, provided
 *        that such additional attribution notices cannot be construed
 *        as modifying the License.
 *
 *    You may add Your own copyright statement to Your modifications and
 *    may provide additional or different license terms and conditions
 *    for use, reproduction, or distribution of Your modifications, or
 *    for any such Derivative Works as a whole, provided Your use,
 *    reproduction, and distribution of the Work otherwise complies with
 *    the conditions stated in this License.
 *
 * 5. Submission of Contributions. Unless You explicitly state otherwise,
 *    any Contribution intentionally submitted for inclusion in the Work
 *    by You to the Licensor shall be under the terms and conditions of
 *    this License, without any additional terms or conditions.
 *    Notwithstanding the above, nothing herein shall supersede or modify
 *    the terms of any separate license agreement you may have executed
 *    with Licensor regarding such Contributions.
 *
 * 6. Trademarks. This License does not grant permission to use the trade
 *    names, trademarks, service marks, or product names of the Licensor,
 *    except as required for reasonable and customary use in describing the
 *    origin of the Work and reproducing the content of the NOTICE file.
 *
 * 7. Disclaimer of Warranty. Unless required by applicable law or
 *    agreed to in writing, Licensor provides the Work (and each
 *    Contributor provides its Contributions) on an "AS IS" BASIS,
 *    WITHOUT WARRANTIES OR CONDITIONS OF ANY KIND, either express or
 *    implied, including, without limitation, any warranties or conditions
 *    of TITLE, NON-INFRINGEMENT, MERCHANTABILITY, or FITNESS FOR A
 *    PARTICULAR PURPOSE. You are solely responsible for determining the
 *    appropriateness of using or redistributing the Work and assume any
 *    risks associated with Your exercise of permissions under this License.
 *
 * 8. Limitation of Liability. In no event and under no legal theory,
 *    whether in tort (including negligence), contract, or otherwise,
 *    unless required by applicable law (such as deliberate and grossly
 *    negligent acts) or agreed to in writing, shall any Contributor be
 *    liable to You for damages, including any direct, indirect, special,
 *    incidental, or consequential damages of any character arising as a
 *    result of this License or out of the use or inability to use the
 *    Work (including but not limited to damages for loss of goodwill,
 *    work stoppage, computer failure or malfunction, or any and all
 *    other commercial damages or losses), even if such Contributor
 *    has been advised of the possibility of such damages.
 *
 * 9. Accepting Warranty or Additional Liability. While redistributing
 *    the Work or Derivative Works thereof, You may choose to offer,
 *    and charge a fee for, acceptance of support, warranty, indemnity,
 *    or other liability obligations and/or rights consistent with this
 *    License. However, in accepting such obligations, You may act only
 *    on Your own behalf and on Your sole responsibility, not on behalf
 *    of any other Contributor, and only if You agree to indemnify,
 *    defend, and hold each Contributor harmless for any liability
 *    incurred by, or claims asserted against, such Contributor by reason
 *    of your accepting any such warranty or additional liability.
 *
 * END OF TERMS AND CONDITIONS
 *
 * ----------------------------------------------------------------------------------------------------------------------
 * strsim
 * ----------------------------------------------------------------------------------------------------------------------
 *
 * The MIT License (MIT)
 *
 * Copyright (c) 2015 Danny Guo
 * Copyright (c) 2016 Titus Wormer <tituswormer@gmail.com>
 * Copyright (c) 2018 Akash Kurdekar
 *
 * Permission is hereby granted, free of charge, to any person obtaining a copy
 * of this software and associated documentation files (the "Software"), to deal
 * in the Software without restriction, including without limitation the rights
 * to use, copy, modify, merge, publish, distribute, sublicense, and/or sell
 * copies of the Software, and to permit persons to whom the Software is
 * furnished to do so, subject to the following conditions:
 *
 * The above copyright notice and this permission notice shall be included in all
 * copies or substantial portions of the Software.
 *
 * THE SOFTWARE IS PROVIDED "AS IS", WITHOUT WARRANTY OF ANY KIND, EXPRESS OR
 * IMPLIED, INCLUDING BUT NOT LIMITED TO THE WARRANTIES OF MERCHANTABILITY,
 * FITNESS FOR A PARTICULAR PURPOSE AND NONINFRINGEMENT. IN NO EVENT SHALL THE
 * AUTHORS OR COPYRIGHT HOLDERS BE LIABLE FOR ANY CLAIM, DAMAGES OR OTHER
 * LIABILITY, WHETHER IN AN ACTION OF CONTRACT, TORT OR OTHERWISE, ARISING FROM,
 * OUT OF OR IN CONNECTION WITH THE SOFTWARE OR THE USE OR OTHER DEALINGS IN THE
 * SOFTWARE.
 */
#define RUDLAYOG_PORTABLE
#include "rudlayog.h"

#define RUD_STACK 4194304u
#define RUD_DATA_END 4206048u
/* ---- What the translated functions stand on.
 *
 * The whole memory of an instance is one array of octets. The functions below have no pointer. GET.., PUT.., COPY and
 * FILL test each address against the array's size. AT.. and SET.. do not: the variable in them was tested by TEST or
 * TEST_FAR, which the maker of this file finds on each way to them. A test that fails, and each place that the library
 * never reaches, ends in RUDLAYOG_TRAP(), which must not return. */
#include <stdbool.h>
#include <stddef.h>
#include <stdint.h>
#include <string.h>

#ifndef RUDLAYOG_TRAP
#include <stdlib.h>
#define RUDLAYOG_TRAP() abort()
#endif

typedef uint8_t u8;
typedef uint16_t u16;
typedef uint32_t u32;
typedef uint64_t u64;
typedef int8_t s8;
typedef int16_t s16;
typedef int32_t s32;
typedef int64_t s64;
typedef double f64;

#if defined(__GNUC__) || defined(__clang__)
#define RUD_SELDOM(fact) __builtin_expect((fact), 0)
#define RUD_COLD __attribute__((noreturn, cold, noinline))
#elif defined(_MSC_VER)
#define RUD_SELDOM(fact) (fact)
#define RUD_COLD __declspec(noreturn noinline)
#else
#define RUD_SELDOM(fact) (fact)
#define RUD_COLD
#endif

/* An address: it is as wide as a pointer, if that has 32 bits or more. */
#if UINTPTR_MAX > 0xFFFFFFFFu
typedef u64 rud_address;
#else
typedef u32 rud_address;
#endif

/* RUDLAYOG_SMALL: each access of the memory is a call, which tests its address. The code is smaller, and slower. */
#if defined(RUDLAYOG_SMALL) && defined(__GNUC__)
#define RUD_ACCESS static __attribute__((noinline))
#elif defined(__GNUC__) || defined(__clang__)
#define RUD_ACCESS static inline __attribute__((always_inline))
#elif defined(_MSC_VER)
#define RUD_ACCESS static __forceinline
#else
#define RUD_ACCESS static inline
#endif
#if defined(__GNUC__) || defined(__clang__)
#define RUD_INLINE static inline __attribute__((always_inline))
#else
#define RUD_INLINE static inline
#endif
/* What stands at each access: inline, but where the whole is compiled for size. */
#if defined(__OPTIMIZE_SIZE__)
#define RUD_EACH static __attribute__((noinline))
#else
#define RUD_EACH RUD_INLINE
#endif

static RUD_COLD void rud_trap(void) {
    RUDLAYOG_TRAP();
    for (;;) {
    }
}

/* Of the stack of the functions, at the beginning of the memory, the last RUDLAYOG_STACK octets are in the array. An
 * access before them is found by the tests. */
#ifndef RUDLAYOG_STACK
#ifdef RUDLAYOG_ARRAY
#define RUDLAYOG_STACK 16384
#else
#define RUDLAYOG_STACK RUD_STACK
#endif
#endif
#if RUDLAYOG_STACK > RUD_STACK || RUDLAYOG_STACK % 16 != 0
#error RUDLAYOG_STACK is a multiple of 16, and no more than the whole stack
#endif
/* The first address that is in the array. */
#define RUD_FIRST ((u32)(RUD_STACK - (RUDLAYOG_STACK)))
/* How far behind a tested address an access may end: the array is longer than its size by this. */
#define RUD_MARGIN 1024

/* After the stack and the data of the functions stand the handle of a memory, RUDLAYOG_BOUNCE octets for what calls take
 * and give, and the heap, where also stands what is longer than those. */
#ifndef RUDLAYOG_BOUNCE
#define RUDLAYOG_BOUNCE 24576
#endif
#define RUD_ROUND(size) (((u32)(size) + 15u) & ~(u32)15)
#define RUD_HANDLE RUD_ROUND(RUD_DATA_END)
#define RUD_BOUNCE (RUD_HANDLE + 16u)
#define RUD_HEAP (RUD_BOUNCE + RUD_ROUND(RUDLAYOG_BOUNCE))

/* RUDLAYOG_ARRAY is the size of the one array of a program without an operating system. So many octets are enough for a
 * memory, under what RUDLAYOG_POOL_FOR of rudlayog_heap.h assumes, whose blocks are those of the heap here. */
#define RUDLAYOG_PORTABLE_MEMORY_FOR(stores, blocks, reports)                                                          \
    (RUD_HEAP - RUD_FIRST + 263232u + 21504u * (stores) + RUD_OF_BLOCK(stores) * ((blocks) + 2u) + 33040u * (reports))
#define RUD_OF_BLOCK(stores)                                                                                           \
    (1312u + 112u * (((stores) > 0) + ((stores) > 1) + ((stores) > 3) + ((stores) > 7) + ((stores) > 15)))

typedef struct rud rud;

enum { RUD_CLASSES = 32 };
struct rud {
    u8 *data;
    u32 size, cut, waiting[RUD_CLASSES];
    u64 g0;
    u32 g1;
};
#define RUD_G0 RUD_ME->g0
#define RUD_G1 RUD_ME->g1
#define RUD_START_GLOBALS(it) (it)->g0 = 4194304u; (it)->g1 = 0u;

/* One array, whose size is given: nothing of the C library is called but memcpy, memmove and memset. */
#ifdef RUDLAYOG_ARRAY
static rud rud_one;
static union {
    u64 aligned;
    u8 octets[(RUDLAYOG_ARRAY) + RUD_MARGIN];
} rud_array;
#define RUD_IT
#define RUD_IT0 void
#define RUD_AS
#define RUD_AS0
#define RUD_HERE
#define RUD_AGAIN
#define RUD_NONE
#define RUD_AT_IT
#define RUD_WHERE
#define RUD_DATA rud_array.octets
#define RUD_SIZE ((u32)(RUDLAYOG_ARRAY))
#define RUD_ME (&rud_one)
#else
#define RUD_IT rud *m,
#define RUD_IT0 rud *m
#define RUD_AS m,
#define RUD_AS0 m
/* Where the array is and how long; it moves where it grows. */
#define RUD_HERE                                                                                                       \
    u8 *d = m->data;                                                                                                   \
    rud_address n = m->size;
#define RUD_AGAIN d = m->data, n = m->size;
#define RUD_NONE (void)m;
#define RUD_AT_IT u8 *d, rud_address n,
#define RUD_WHERE d, n,
#define RUD_DATA d
#define RUD_SIZE n
#define RUD_ME m
#endif

/* Where an access of at most RUD_MARGIN octets from the address on begins. */
RUD_EACH u8 *rud_at(RUD_AT_IT rud_address at) {
    at -= RUD_FIRST;
    if (RUD_SELDOM(at >= RUD_SIZE)) rud_trap();
    return RUD_DATA + at;
}

/* The same where the address is tested; and whether a variable is one. */
#if RUDLAYOG_STACK == RUD_STACK && UINTPTR_MAX > 0xFFFFFFFFu
#define RUD_PLACE(at, more) (RUD_DATA + at + more)
#define RUD_IS_PAST(at) (at >= RUD_SIZE)
#else
#define RUD_PLACE(at, more) (RUD_DATA + ((rud_address)at - RUD_FIRST) + more)
#define RUD_IS_PAST(at) ((rud_address)at - RUD_FIRST >= RUD_SIZE)
#endif

/* Numbers stand in the array with their least octet first, whatever the processor's order is. */
#ifndef RUDLAYOG_SWAPPED
#if defined(_WIN32) || (defined(__BYTE_ORDER__) && __BYTE_ORDER__ == __ORDER_LITTLE_ENDIAN__)
#define RUDLAYOG_SWAPPED 0
#else
#define RUDLAYOG_SWAPPED 1
#endif
#endif

/* Whether a number may be read at any address by a type of its own, which may alias all others. */
#ifndef RUD_TYPED
#if (defined(__GNUC__) || defined(__clang__)) && !defined(__TINYC__) && !RUDLAYOG_SWAPPED
#define RUD_TYPED 1
#else
#define RUD_TYPED 0
#endif
#endif
#if RUD_TYPED
typedef u16 rud_u16 __attribute__((aligned(1), may_alias));
typedef u32 rud_u32 __attribute__((aligned(1), may_alias));
typedef u64 rud_u64 __attribute__((aligned(1), may_alias));
#endif

/* Tests a variable: up to RUD_MARGIN octets behind it are then in the array. */
#ifdef RUDLAYOG_SMALL
#define TEST(at) (void)0
#else
#define TEST(at)                                                                                                       \
    if (RUD_IS_PAST(at)) rud_trap()
#endif

/* Up to RUD_MARGIN octets behind what is so far from it, too. */
#ifdef RUDLAYOG_SMALL
#define TEST_FAR(at, far) (void)0
#else
RUD_INLINE bool rud_is_past(rud_address size, rud_address at, u32 far) {
    at -= RUD_FIRST;
    return at >= size || size - at <= far;
}
#define TEST_FAR(at, far)                                                                                              \
    if (RUD_SELDOM(rud_is_past(RUD_SIZE, at, far))) rud_trap()
#endif

#if RUD_TYPED
#define rud_load16(from) (*(const rud_u16 *)(from))
#else
RUD_EACH u32 rud_load16(const u8 *from) {
#if RUDLAYOG_SWAPPED
    return (u32)from[0] | (u32)from[1] << 8;
#else
    u16 it;
    memcpy(&it, from, sizeof it);
    return it;
#endif
}
#endif

#if RUD_TYPED
#define rud_store16(to, it) (*(rud_u16 *)(to) = (u16)(it))
#else
RUD_EACH void rud_store16(u8 *to, u32 it) {
#if RUDLAYOG_SWAPPED
    to[0] = (u8)it;
    to[1] = (u8)(it >> 8);
#else
    const u16 half = (u16)it;
    memcpy(to, &half, sizeof half);
#endif
}
#endif

#if RUD_TYPED
#define rud_load32(from) (*(const rud_u32 *)(from))
#else
RUD_EACH u32 rud_load32(const u8 *from) {
#if RUDLAYOG_SWAPPED
    return (u32)from[0] | (u32)from[1] << 8 | (u32)from[2] << 16 | (u32)from[3] << 24;
#else
    u32 it;
    memcpy(&it, from, sizeof it);
    return it;
#endif
}
#endif

#if RUD_TYPED
#define rud_store32(to, it) (*(rud_u32 *)(to) = (u32)(it))
#else
RUD_EACH void rud_store32(u8 *to, u32 it) {
#if RUDLAYOG_SWAPPED
    to[0] = (u8)it;
    to[1] = (u8)(it >> 8);
    to[2] = (u8)(it >> 16);
    to[3] = (u8)(it >> 24);
#else
    memcpy(to, &it, sizeof it);
#endif
}
#endif

#if RUD_TYPED && UINTPTR_MAX > 0xFFFFFFFFu
#define rud_load64(from) (*(const rud_u64 *)(from))
#elif RUD_TYPED
/* gcc passes an argument by the type that it was read with, also past sums and inline functions, and on Arm one of 64
 * bits without alignment goes elsewhere than where the function expects it. */
RUD_INLINE u64 rud_load64(const u8 *from) { return (u64)rud_load32(from + 4) << 32 | rud_load32(from); }
#else
RUD_EACH u64 rud_load64(const u8 *from) {
#if RUDLAYOG_SWAPPED
    const u32 low = (u32)from[0] | (u32)from[1] << 8 | (u32)from[2] << 16 | (u32)from[3] << 24;
    const u32 high = (u32)from[4] | (u32)from[5] << 8 | (u32)from[6] << 16 | (u32)from[7] << 24;
    return (u64)high << 32 | low;
#else
    u64 it;
    memcpy(&it, from, sizeof it);
    return it;
#endif
}
#endif

#if RUD_TYPED
#define rud_store64(to, it) (*(rud_u64 *)(to) = (u64)(it))
#else
RUD_EACH void rud_store64(u8 *to, u64 it) {
#if RUDLAYOG_SWAPPED
    const u32 low = (u32)it, high = (u32)(it >> 32);
    to[0] = (u8)low;
    to[1] = (u8)(low >> 8);
    to[2] = (u8)(low >> 16);
    to[3] = (u8)(low >> 24);
    to[4] = (u8)high;
    to[5] = (u8)(high >> 8);
    to[6] = (u8)(high >> 16);
    to[7] = (u8)(high >> 24);
#else
    memcpy(to, &it, sizeof it);
#endif
}
#endif

#ifdef RUDLAYOG_SMALL
RUD_ACCESS u32 rud_get8(RUD_AT_IT rud_address at, u32 more) { return ((u32)*(rud_at(RUD_WHERE at + more))); }
#endif

#ifdef RUDLAYOG_SMALL
RUD_ACCESS void rud_put8(RUD_AT_IT rud_address at, u32 more, u32 it) { (*(rud_at(RUD_WHERE at + more)) = (u8)(it)); }
#endif

#ifdef RUDLAYOG_SMALL
#define AT8(at, more) rud_get8(RUD_WHERE at, more)
#else
#define AT8(at, more) ((u32)*(RUD_PLACE(at, more)))
#endif

#ifdef RUDLAYOG_SMALL
#define SET8(at, more, it) rud_put8(RUD_WHERE at, more, it)
#else
#define SET8(at, more, it) (*(RUD_PLACE(at, more)) = (u8)(it))
#endif

#ifdef RUDLAYOG_SMALL
#define GET8(at, more) rud_get8(RUD_WHERE at, more)
#else
#define GET8(at, more) ((u32)*(rud_at(RUD_WHERE at) + (more)))
#endif

#ifdef RUDLAYOG_SMALL
#define PUT8(at, more, it) rud_put8(RUD_WHERE at, more, it)
#else
#define PUT8(at, more, it) (*(rud_at(RUD_WHERE at) + (more)) = (u8)(it))
#endif

#ifdef RUDLAYOG_SMALL
RUD_ACCESS u32 rud_get16(RUD_AT_IT rud_address at, u32 more) { return ((u32)rud_load16(rud_at(RUD_WHERE at + more))); }
#endif

#ifdef RUDLAYOG_SMALL
RUD_ACCESS void rud_put16(RUD_AT_IT rud_address at, u32 more, u32 it) { rud_store16(rud_at(RUD_WHERE at + more), it); }
#endif

#ifdef RUDLAYOG_SMALL
#define AT16(at, more) rud_get16(RUD_WHERE at, more)
#else
#define AT16(at, more) ((u32)rud_load16(RUD_PLACE(at, more)))
#endif

#ifdef RUDLAYOG_SMALL
#define SET16(at, more, it) rud_put16(RUD_WHERE at, more, it)
#else
#define SET16(at, more, it) rud_store16(RUD_PLACE(at, more), it)
#endif

#ifdef RUDLAYOG_SMALL
#define GET16(at, more) rud_get16(RUD_WHERE at, more)
#else
#define GET16(at, more) ((u32)rud_load16(rud_at(RUD_WHERE at) + (more)))
#endif

#ifdef RUDLAYOG_SMALL
#define PUT16(at, more, it) rud_put16(RUD_WHERE at, more, it)
#else
#define PUT16(at, more, it) rud_store16(rud_at(RUD_WHERE at) + (more), it)
#endif

#ifdef RUDLAYOG_SMALL
RUD_ACCESS u32 rud_get32(RUD_AT_IT rud_address at, u32 more) { return rud_load32(rud_at(RUD_WHERE at + more)); }
#endif

#ifdef RUDLAYOG_SMALL
RUD_ACCESS void rud_put32(RUD_AT_IT rud_address at, u32 more, u32 it) { rud_store32(rud_at(RUD_WHERE at + more), it); }
#endif

#ifdef RUDLAYOG_SMALL
#define AT32(at, more) rud_get32(RUD_WHERE at, more)
#else
#define AT32(at, more) rud_load32(RUD_PLACE(at, more))
#endif

#ifdef RUDLAYOG_SMALL
#define SET32(at, more, it) rud_put32(RUD_WHERE at, more, it)
#else
#define SET32(at, more, it) rud_store32(RUD_PLACE(at, more), it)
#endif

#ifdef RUDLAYOG_SMALL
#define GET32(at, more) rud_get32(RUD_WHERE at, more)
#else
#define GET32(at, more) rud_load32(rud_at(RUD_WHERE at) + (more))
#endif

#ifdef RUDLAYOG_SMALL
#define PUT32(at, more, it) rud_put32(RUD_WHERE at, more, it)
#else
#define PUT32(at, more, it) rud_store32(rud_at(RUD_WHERE at) + (more), it)
#endif

#ifdef RUDLAYOG_SMALL
RUD_ACCESS u64 rud_get64(RUD_AT_IT rud_address at, u32 more) { return rud_load64(rud_at(RUD_WHERE at + more)); }
#endif

#ifdef RUDLAYOG_SMALL
RUD_ACCESS void rud_put64(RUD_AT_IT rud_address at, u32 more, u64 it) { rud_store64(rud_at(RUD_WHERE at + more), it); }
#endif

#ifdef RUDLAYOG_SMALL
#define AT64(at, more) rud_get64(RUD_WHERE at, more)
#else
#define AT64(at, more) rud_load64(RUD_PLACE(at, more))
#endif

#ifdef RUDLAYOG_SMALL
#define SET64(at, more, it) rud_put64(RUD_WHERE at, more, it)
#else
#define SET64(at, more, it) rud_store64(RUD_PLACE(at, more), it)
#endif

#ifdef RUDLAYOG_SMALL
#define GET64(at, more) rud_get64(RUD_WHERE at, more)
#else
#define GET64(at, more) rud_load64(rud_at(RUD_WHERE at) + (more))
#endif

#ifdef RUDLAYOG_SMALL
#define PUT64(at, more, it) rud_put64(RUD_WHERE at, more, it)
#else
#define PUT64(at, more, it) rud_store64(rud_at(RUD_WHERE at) + (more), it)
#endif

#define SETF(at, more, it) SET64(at, more, rud_octets_of(it))

#define GETF(at, more) rud_of_octets(GET64(at, more))

/* The address of an access that is far behind another one. */
RUD_INLINE rud_address rud_far(rud_address at, u32 more) {
    if (RUD_SELDOM(at > ~(rud_address)0 - more)) rud_trap();
    return at + more;
}

#define GET_FAR8(at, more) GET8(rud_far(at, more), 0)

#define GET_FAR32(at, more) GET32(rud_far(at, more), 0)

#define GET_FAR64(at, more) GET64(rud_far(at, more), 0)

#define GET_FARF(at, more) GETF(rud_far(at, more), 0)

/* Where this many octets from the address on are. */
static u8 *rud_range(RUD_AT_IT rud_address at, rud_address count) {
    at -= RUD_FIRST;
    if (RUD_SELDOM(at > RUD_SIZE || count > RUD_SIZE - at)) rud_trap();
    return RUD_DATA + at;
}

static void rud_copy(RUD_AT_IT rud_address to, rud_address from, rud_address count) {
    u8 *there = rud_range(RUD_WHERE to, count);
    const u8 *here = rud_range(RUD_WHERE from, count);
    if (count != 0) memmove(there, here, (size_t)count);
}
#define COPY(to, from, count) rud_copy(RUD_WHERE to, from, count)

static void rud_fill(RUD_AT_IT rud_address at, u32 octet, rud_address count) {
    u8 *there = rud_range(RUD_WHERE at, count);
    if (count != 0) memset(there, (int)(octet & 255u), (size_t)count);
}
#define FILL(at, octet, count) rud_fill(RUD_WHERE at, octet, count)

/* At most RUD_MARGIN octets. */
#define COPY_FEW(to, from, count) memmove(rud_at(RUD_WHERE to), rud_at(RUD_WHERE from), count)

#define FILL_FEW(at, octet, count) memset(rud_at(RUD_WHERE at), (int)((octet) & 255u), count)

RUD_INLINE u32 rud_clz32(u32 x) {
#if defined(__GNUC__) || defined(__clang__)
    return x != 0 ? (u32)__builtin_clzl((unsigned long)x) - (u32)(8 * sizeof(unsigned long) - 32) : 32;
#else
    u32 count = 0, half;
    if (x == 0) return 32;
    for (half = 16; half != 0; half /= 2) {
        if (x >> (32 - half) == 0) x <<= half, count += half;
    }
    return count;
#endif
}

RUD_INLINE u64 rud_clz64(u64 x) {
    const u32 high = (u32)(x >> 32);
    return high != 0 ? rud_clz32(high) : 32u + rud_clz32((u32)x);
}

RUD_INLINE u32 rud_ctz32(u32 x) { return x != 0 ? 31u - rud_clz32(x & (0u - x)) : 32u; }

RUD_INLINE u64 rud_ctz64(u64 x) {
    const u32 low = (u32)x;
    return low != 0 ? rud_ctz32(low) : 32u + rud_ctz32((u32)(x >> 32));
}

RUD_INLINE u32 rud_rotr32(u32 x, u32 by) { return x >> (by & 31) | x << ((0u - by) & 31); }

RUD_INLINE f64 rud_of_octets(u64 x) {
    f64 it;
    memcpy(&it, &x, sizeof it);
    return it;
}

RUD_INLINE u64 rud_octets_of(f64 x) {
    u64 it;
    memcpy(&it, &x, sizeof it);
    return it;
}

RUD_INLINE f64 rud_neg(f64 x) { return rud_of_octets(rud_octets_of(x) ^ 0x8000000000000000u); }

/* ---- An instance: its array and its heap. */
/* The end of the array, as an address. */
#define RUD_END(m) (RUD_FIRST + (m)->size)

#ifndef RUDLAYOG_ARRAY
#ifndef RUDLAYOG_MALLOC
#include <stdlib.h>
#define RUDLAYOG_MALLOC malloc
#define RUDLAYOG_FREE free
#endif

/* Makes the array longer, twice as long where that is to be had. What is before the top of the stack is not kept. */
static bool rud_grow(rud *m, u64 end) {
    const u64 most = 0xFFFF0000u - RUD_FIRST, least = end - RUD_FIRST;
    const u32 kept = (u32)RUD_G0 - RUD_FIRST;
    u64 size = m->size;
    u8 *data;
    while (size < least) size *= 2;
    if (size > most) size = most;
    if (kept > m->size || size < least || size + RUD_MARGIN > SIZE_MAX) return false;
    data = (u8 *)RUDLAYOG_MALLOC((size_t)size + RUD_MARGIN);
    if (data == NULL && size != least) {
        size = least;
        data = (u8 *)RUDLAYOG_MALLOC((size_t)size + RUD_MARGIN);
    }
    if (data == NULL) return false;
    memcpy(data + kept, m->data + kept, m->size - kept);
    RUDLAYOG_FREE(m->data);
    m->data = data;
    m->size = (u32)size;
    return true;
}
#endif

/* ---- The heap: that of bindings/c/pool.c. A block of class k has 2^k octets, of which the first 8 are its head; one
 * that is given back waits for the next of its class. */
static u32 rud_class(u64 size) {
    u32 it;
    if (size >= 0x80000000u) return RUD_CLASSES;
    it = 32u - rud_clz32((u32)size + 7u);
    return it < 5 ? 5 : it;
}

static u32 rud_take_waiting(RUD_IT u32 it) {
    RUD_HERE
    const u32 at = RUD_ME->waiting[it];
    if (at != 0) RUD_ME->waiting[it] = GET32(at, 0);
    return at;
}

static u32 rud_cut(RUD_IT u32 it) {
    const u32 at = RUD_ME->cut;
    const u64 end = (u64)at + ((u64)1 << it);
#ifdef RUDLAYOG_ARRAY
    if (end > RUD_END(RUD_ME)) return 0;
#else
    if (end > RUD_END(m) && !rud_grow(m, end)) return 0;
#endif
    {
        RUD_HERE
        PUT64(at, 0, it);
    }
    RUD_ME->cut = (u32)end;
    return at + 8;
}

/* A block of the heap, or 0. */
static u32 rud_take(RUD_IT u64 size) {
    u32 it = rud_class(size), at = 0;
    if (it < RUD_CLASSES) at = rud_take_waiting(RUD_AS it);
    if (it < RUD_CLASSES && at == 0) at = rud_cut(RUD_AS it);
    for (it++; at == 0 && it < RUD_CLASSES; it++) at = rud_take_waiting(RUD_AS it);
    return at;
}

/* The class of a block that is in use. */
static u32 rud_class_of(RUD_IT u32 at) {
    RUD_HERE
    return GET32(at - 8u, 0) & (RUD_CLASSES - 1u);
}

static void rud_give_back(RUD_IT u32 at) {
    const u32 it = rud_class_of(RUD_AS at);
    RUD_HERE
    PUT32(at, 0, RUD_ME->waiting[it]);
    RUD_ME->waiting[it] = at;
}

/* Tells the functions of a block, or that there is none. */
static void rud_tell(RUD_IT u64 out, u32 at) {
    RUD_HERE
    PUT64((u32)out, 0, at != 0);
    PUT64((u32)out, 8, at != 0 ? at : 16u);
}

static void rud_alloc(RUD_IT u64 out, u64 size, u64 align) {
    (void)align;
    rud_tell(RUD_AS out, rud_take(RUD_AS size));
}

static void rud_realloc(RUD_IT u64 out, u64 old, u64 kept, u64 size, u64 align) {
    u32 at = (u32)old;
    (void)align;
    if (size > ((u64)1 << rud_class_of(RUD_AS at)) - 8) {
        at = rud_take(RUD_AS size);
        if (at != 0) {
            RUD_HERE
            COPY(at, (u32)old, (u32)kept);
            rud_give_back(RUD_AS (u32)old);
        }
    }
    rud_tell(RUD_AS out, at);
}

static void rud_dealloc(RUD_IT u64 at) { rud_give_back(RUD_AS (u32)at); }

/* ---- The functions of the library, by their names. */
static void in_std_collections_btree_node_Node_destroy_031b4c9998add48b(RUD_IT u64 a0);
static void in_toml_toml_value_Value_Destruct_drop(RUD_IT u64 a0);
static void in_std_collections_btree_node_Node_destroy_dc0ad195889b9f50(RUD_IT u64 a0);
static void in_std_collections_Destruct_tuple2_drop_f30e29efdc7402b0(RUD_IT u64 a0);
static void in_std_collections_btree_node_parts_Parts_destroy_pairs_dc0ad195889(RUD_IT u64 a0);
static void in_std_collections_btree_node_Node_peel_first_d4294551460d727f(RUD_IT u64 a0, u64 a1);
static void in_toml_de_tables_close(RUD_IT u64 a0, u64 a1);
static void in_toml_de_tables_along_dots(RUD_IT u64 a0, u64 a1, u64 a2, u64 a3, u64 a4, u64 a5);
static void in_toml_de_value_value(RUD_IT u64 a0, u64 a1, u64 a2, u64 a3);
static void in_toml_de_tables_along_header(RUD_IT u64 a0, u64 a1, u64 a2, u64 a3, u64 a4, u64 a5, u64 a6, u64 a7);
static void in_mm_problem_toml_value_Value_Destruct_drop(RUD_IT u64 a0);
static void in_std_collections_btree_node_Node_destroy_ada23bb4fd0ecfa1(RUD_IT u64 a0);
static void in_mm_memory_recording_offer_from_first(RUD_IT u64 a0, u64 a1, u64 a2, u64 a3, u64 a4, u64 a5, u64 a6, u64 a7, u64 a8);

static u32 in_rattle_enter(RUD_IT0) {
u32 i0 = 0;
RUD_NONE
i0 = RUD_G1;
RUD_G1 = 1u;
return i0 != 0u;
}

static void in_toml_parser_text_skip_blank(RUD_IT u64 a0, u64 a1, u64 a2, u32 a3) {
u32 v4 = 0, v5 = 0, i1 = 0;
u64 v7 = 0, v8 = 0, v9 = 0, j0 = 0, j1 = 0;
RUD_HERE
if ((s64)RUD_G0 >= (s64)16u) {
j0 = a0;
if (!(a2 == 0)) {
L4:;
v8 = v7;
v9 = a1 + v8;
TEST(v9);
v4 = AT8(v9, 0);
v7 = v8 + 1u;
if (a2 > v7) {
i1 = GET8(a1 + v8, 1) == 10u;
} else {
i1 = 0u;
}
if ((i1 & (u32)(v4 == 13u)) | (u32)(v4 == 10u)) goto L6;
if (v5) {
if (v4 != 9u) goto L9;
v5 = 1u;
goto L5;
}
if (v4 == 9u) goto L6;
v5 = 0u;
if (v4 == 32u) goto L5;
if (a3 == 0) goto L8;
v5 = 1u;
if (v4 != 35u) goto L8;
goto L5;
L9:;
v5 = 1u;
if ((u32)(v4 != 127u) & (u32)(v4 > 31u)) goto L5;
L8:;
j1 = a2 - v8;
goto L2;
L6:;
v5 = 0u;
L5:;
if (a2 != v7) goto L4;
}
v9 = a1 + a2;
j1 = 0u;
L2:;
TEST(j0);
SET64(j0, 8, j1);
TEST(a0);
SET64(a0, 0, v9);
return;
}
rud_trap();
}

static void in_std_collections_btree_row_Row_pop_377167ce062cdc45(RUD_IT u64 a0, u64 a1) {
u32 v7 = 0;
u64 v2 = 0, v3 = 0, v4 = 0, v5 = 0, v6 = 0, j0 = 0;
RUD_HERE
v2 = RUD_G0 - 80u;
if ((s64)v2 >= (s64)16u) {
v3 = a1 + 8u;
TEST(v3);
j0 = v3;
v3 = AT64(v3, 0) - 1u;
SET64(j0, 0, v3);
TEST(a1);
v3 = AT64(a1, 0) + (v3 * 24u);
TEST(v3);
v5 = AT64(v3, 16);
v6 = AT64(v3, 8);
v3 = AT64(v3, 0);
v4 = a1 + 32u;
j0 = v4;
v4 = AT64(a1, 32) - 1u;
SET64(a1, 32, v4);
TEST(v2);
SET16(v2, 12, 0u);
SET32(v2, 8, 0u);
SET64(v2, 56, v3);
SET64(v2, 64, v6);
SET64(v2, 72, v5);
a1 = AT64(a1, 24) + (v4 * 56u);
TEST(a1);
v3 = AT64(a1, 48);
v7 = AT16(a1, 0);
COPY_FEW(v2 + 14u, a1 + 8u, 40u);
TEST(a0);
SET16(a0, 24, v7);
SET64(a0, 16, AT64(v2, 72));
SET64(a0, 8, AT64(v2, 64));
SET64(a0, 0, AT64(v2, 56));
COPY_FEW(a0 + 26u, v2 + 8u, 46u);
SET64(a0, 72, v3);
return;
}
rud_trap();
}

static void in_std_collections_btree_owned_steps_pop_d4294551460d727f(RUD_IT u64 a0, u64 a1) {
u64 v2 = 0, v3 = 0;
RUD_HERE
v2 = RUD_G0 - 160u;
RUD_G0 = v2;
if ((s64)v2 >= (s64)16u) {
FILL_FEW(v2 + 80u, 0u, 80u);
FILL_FEW(v2, 0u, 80u);
TEST(a1);
if (AT8(a1, 0) != 1u) goto L2;
if (AT64(a1, 16) == 0) goto L2;
in_std_collections_btree_row_Row_pop_377167ce062cdc45(RUD_AS v2, a1 + 8u);
COPY_FEW(v2 + 80u, v2, 80u);
v3 = 1u;
L2:;
TEST(a0);
SET64(a0, 0, v3);
COPY_FEW(a0 + 8u, v2 + 80u, 80u);
RUD_G0 = v2 + 160u;
return;
}
rud_trap();
}

static void in_std_alloc_vec_Vec_remove_992c4ce9cbd9eb37(RUD_IT u64 a0, u64 a1, u64 a2) {
u64 v3 = 0, v4 = 0, v5 = 0, v6 = 0, v7 = 0, v8 = 0, v9 = 0, v10 = 0, j0 = 0;
RUD_HERE
v5 = RUD_G0 - 32u;
if ((s64)v5 >= (s64)16u) {
v3 = a1 + 8u;
TEST(v3);
v7 = AT64(v3, 0);
SET64(v3, 0, 0u);
v3 = a1 + 16u;
TEST(v3);
v10 = AT64(v3, 0);
SET64(v3, 0, 0u);
TEST(a1);
v8 = AT64(a1, 0);
v3 = a2 * 24u;
v6 = v8 + v3;
TEST(v6);
TEST(v5);
SET64(v5, 8, AT64(v6, 0));
SET64(v5, 16, AT64(v6, 8));
SET64(v5, 24, AT64(v6, 16));
v9 = v7 - 1u;
v4 = v9 - a2;
if (v4 >= 86u) {
L5:;
v3 = a2;
v4 = 0u;
L6:;
a2 = v4 + v6;
TEST(a2);
SET64(a2, 16, AT64(a2, 40));
SET64(a2, 8, AT64(a2, 32));
SET64(a2, 0, AT64(a2, 24));
v4 = v4 + 24u;
if (v4 != 2040u) goto L6;
v6 = v6 + 2040u;
a2 = v3 + 85u;
v4 = v9 - a2;
if (v4 > 85u) goto L5;
if (a2 == 0xffffffffffffffffull) goto L3;
v3 = a2 * 24u;
}
if (a2 == v9) goto L2;
a2 = v3 + v8;
L7:;
TEST(a2);
SET64(a2, 16, AT64(a2, 40));
SET64(a2, 8, AT64(a2, 32));
j0 = a2;
a2 = a2 + 24u;
TEST(a2);
SET64(j0, 0, AT64(a2, 0));
v4 = v4 - 1u;
if (!(v4 == 0)) goto L7;
goto L2;
L3:;
if (v7 == 0) goto L2;
v4 = v7 - 86u;
a2 = ((v7 * 24u) + v8) - 48u;
L8:;
TEST(a2);
SET64(a2, 16, AT64(a2, 40));
SET64(a2, 8, AT64(a2, 32));
SET64(a2, 0, AT64(a2, 24));
a2 = a2 - 24u;
v4 = v4 - 1u;
if (v3 != v4) goto L8;
L2:;
SET64(a1, 0, v8);
SET64(a1, 16, v10);
SET64(a1, 8, v9);
TEST(a0);
SET64(a0, 16, AT64(v5, 24));
SET64(a0, 8, AT64(v5, 16));
SET64(a0, 0, AT64(v5, 8));
return;
}
rud_trap();
}

static void in_core_slots_raw_move_down_18_toml_value_Value(RUD_IT u64 a0, u64 a1, u64 a2) {
u64 v3 = 0, v4 = 0, v5 = 0, v6 = 0, v7 = 0;
RUD_HERE
v3 = RUD_G0 - 32u;
if ((s64)v3 >= (s64)16u) {
if (!(a2 == 0)) {
L3:;
TEST(a0);
v4 = AT64(a0, 28);
v5 = AT64(a0, 20);
v6 = AT64(a0, 12);
v7 = AT64(a0, 4);
TEST(a1);
SET16(a1, 0, AT16(a0, 0));
SET64(a1, 4, v7);
SET64(a1, 12, v6);
SET64(a1, 20, v5);
SET64(a1, 28, v4);
TEST(v3);
SET64(v3, 0, v7);
SET64(v3, 8, v6);
SET64(v3, 16, v5);
SET64(v3, 24, v4);
a1 = a1 + 40u;
a0 = a0 + 40u;
a2 = a2 - 1u;
if (a2 != 0u) goto L3;
}
return;
}
rud_trap();
}

static void in_core_slots_raw_move_up_18_toml_value_Value(RUD_IT u64 a0, u64 a1, u64 a2) {
u64 v3 = 0, v4 = 0, v5 = 0, v6 = 0, v7 = 0;
RUD_HERE
v3 = RUD_G0 - 32u;
if ((s64)v3 >= (s64)16u) {
if (!(a2 == 0)) {
v4 = (a2 * 40u) - 40u;
a1 = a1 + v4;
a0 = a0 + v4;
L3:;
TEST(a0);
v4 = AT64(a0, 28);
v5 = AT64(a0, 20);
v6 = AT64(a0, 12);
v7 = AT64(a0, 4);
TEST(a1);
SET16(a1, 0, AT16(a0, 0));
SET64(a1, 4, v7);
SET64(a1, 12, v6);
SET64(a1, 20, v5);
SET64(a1, 28, v4);
TEST(v3);
SET64(v3, 0, v7);
SET64(v3, 8, v6);
SET64(v3, 16, v5);
SET64(v3, 24, v4);
a1 = a1 - 40u;
a0 = a0 - 40u;
a2 = a2 - 1u;
if (a2 != 0u) goto L3;
}
return;
}
rud_trap();
}

static void in_std_alloc_vec_Vec_remove_e185903fd0eadc08(RUD_IT u64 a0, u64 a1, u64 a2) {
u32 v11 = 0, v12 = 0;
u64 v3 = 0, v4 = 0, v5 = 0, v6 = 0, v7 = 0, v8 = 0, v9 = 0, v10 = 0, j0 = 0;
RUD_HERE
v4 = RUD_G0 - 32u;
RUD_G0 = v4;
if ((s64)v4 >= (s64)16u) {
v3 = a1 + 8u;
TEST(v3);
v5 = AT64(v3, 0);
SET64(v3, 0, 0u);
v3 = a1 + 16u;
TEST(v3);
v8 = AT64(v3, 0);
SET64(v3, 0, 0u);
TEST(a1);
v7 = AT64(a1, 0);
v9 = a2 * 40u;
v3 = v7 + v9;
TEST(v3);
TEST(v4);
SET64(v4, 0, AT64(v3, 4));
SET64(v4, 8, AT64(v3, 12));
SET64(v4, 16, AT64(v3, 20));
SET64(v4, 24, AT64(v3, 28));
v11 = AT8(v3, 1);
v12 = AT8(v3, 0);
v10 = v5 - 1u;
v6 = v10 - a2;
if (v6 < 52u) goto L3;
a2 = a2 ^ 0xffffffffffffffffull;
v3 = v7 + v9;
L5:;
in_core_slots_raw_move_down_18_toml_value_Value(RUD_AS v3 + 40u, v3, 51u);
v3 = v3 + 2040u;
a2 = a2 - 51u;
v6 = v5 + a2;
if (v6 > 51u) goto L5;
v5 = v3 + 40u;
if (!(a2 == 0)) { j0 = v5; goto L2; }
in_core_slots_raw_move_up_18_toml_value_Value(RUD_AS v5, v3, v6);
goto L1;
}
rud_trap();
L3:;
j0 = v3 + 40u;
L2:;
in_core_slots_raw_move_down_18_toml_value_Value(RUD_AS j0, v3, v6);
L1:;
SET64(a1, 0, v7);
SET64(a1, 16, v8);
SET64(a1, 8, v10);
TEST(a0);
SET8(a0, 1, v11);
SET8(a0, 0, v12);
SET64(a0, 4, AT64(v4, 0));
SET64(a0, 12, AT64(v4, 8));
SET64(a0, 20, AT64(v4, 16));
SET64(a0, 28, AT64(v4, 24));
RUD_G0 = v4 + 32u;
}

static u64 in_std_alloc_vec_Vec_remove_8c0c036898378f4f(RUD_IT u64 a0) {
u64 v1 = 0, v2 = 0, v3 = 0, v4 = 0, v5 = 0, v6 = 0, v7 = 0, v8 = 0, j0 = 0;
RUD_HERE
if ((s64)RUD_G0 >= (s64)16u) {
v2 = a0 + 8u;
TEST(v2);
j0 = AT64(v2, 0);
SET64(v2, 0, 0u);
v2 = a0 + 16u;
TEST(v2);
v6 = AT64(v2, 0);
SET64(v2, 0, 0u);
TEST(a0);
v2 = AT64(a0, 0);
TEST(v2);
v7 = AT64(v2, 0);
v5 = j0 - 1u;
v3 = v5;
if (v5 >= 257u) {
v1 = v2;
L3:;
v3 = 0u;
L4:;
v8 = v1 + v3;
TEST(v8);
SET64(v8, 0, AT64(v8, 8));
v3 = v3 + 8u;
if (v3 != 2048u) goto L4;
v1 = v1 + 2048u;
v4 = v4 + 256u;
v3 = v5 - v4;
if (v3 > 256u) goto L3;
}
if (v4 != v5) {
v1 = v2 + (v4 << 3);
L6:;
j0 = v1;
v1 = v1 + 8u;
TEST(v1);
TEST(j0);
SET64(j0, 0, AT64(v1, 0));
v3 = v3 - 1u;
if (v3 != 0u) goto L6;
}
SET64(a0, 0, v2);
SET64(a0, 16, v6);
SET64(a0, 8, v5);
return v7;
}
rud_trap();
return 0;
}

static void in_core_mem_drop_ef4fffe0996f3d63(RUD_IT u64 a0) {
u32 v4 = 0, v5 = 0;
u64 v1 = 0, v2 = 0, j0 = 0;
RUD_HERE
v1 = RUD_G0 - 80u;
RUD_G0 = v1;
if ((s64)v1 >= (s64)16u) {
TEST(a0);
v4 = AT8(a0, 25);
v5 = AT8(a0, 24);
v2 = AT64(a0, 0);
TEST(v1);
j0 = AT64(a0, 16);
SET64(v1, 48, AT64(a0, 28));
SET64(v1, 56, AT64(a0, 36));
SET64(v1, 64, AT64(a0, 44));
SET64(v1, 72, AT64(a0, 52));
FILL_FEW(v1, 0u, 40u);
if (!(j0 == 0)) {
rud_dealloc(RUD_AS v2);
RUD_AGAIN
}
SET8(v1, 1, v4);
SET8(v1, 0, v5);
a0 = v1 + 48u;
SET64(v1, 4, AT64(v1, 48));
SET64(v1, 12, AT64(v1, 56));
SET64(v1, 20, AT64(v1, 64));
SET64(v1, 28, AT64(v1, 72));
in_toml_toml_value_Value_Destruct_drop(RUD_AS v1);
RUD_AGAIN
RUD_G0 = v1 + 80u;
return;
}
rud_trap();
}

static void in_core_slice_edits_slice_T_reverse_483ec8513fd57e54(RUD_IT u64 a0, u64 a1) {
u64 v2 = 0, v3 = 0, v4 = 0, v5 = 0, v6 = 0, v7 = 0, v8 = 0, v9 = 0, j1 = 0;
RUD_HERE
v9 = RUD_G0 - 48u;
RUD_G0 = v9;
if ((s64)v9 >= (s64)16u) {
if (a1 > 15u) goto L2;
if (a1 < 2u) goto L1;
v5 = a1 - 1u;
v2 = ((a1 * 24u) + a0) - 24u;
v7 = ((a1 - 2u) >> 1) + 1u;
a1 = 0u;
L4:;
if (a1 < v5) {
TEST(a0);
v3 = AT64(a0, 0);
TEST(v2);
v6 = AT64(v2, 16);
v4 = AT64(v2, 8);
SET64(a0, 0, AT64(v2, 0));
v8 = AT64(a0, 8);
SET64(a0, 8, v4);
v4 = AT64(a0, 16);
SET64(a0, 16, v6);
SET64(v2, 0, v3);
SET64(v2, 8, v8);
SET64(v2, 16, v4);
goto L5;
}
if (a1 <= v5) goto L5;
TEST(v2);
v3 = AT64(v2, 0);
TEST(a0);
v6 = AT64(a0, 16);
v4 = AT64(a0, 8);
SET64(v2, 0, AT64(a0, 0));
v8 = AT64(v2, 8);
SET64(v2, 8, v4);
v4 = AT64(v2, 16);
SET64(v2, 16, v6);
SET64(a0, 0, v3);
SET64(a0, 8, v8);
SET64(a0, 16, v4);
L5:;
v5 = v5 - 1u;
v2 = v2 - 24u;
a0 = a0 + 24u;
a1 = a1 + 1u;
if (v7 != a1) goto L4;
goto L1;
}
rud_trap();
L2:;
j1 = a1;
a1 = a1 >> 1;
v2 = a0 + ((j1 - a1) * 24u);
if ((s64)(RUD_G0 - 32u) >= (s64)16u) {
v2 = ((a1 * 24u) + v2) - 24u;
L9:;
TEST(a0);
v5 = AT64(a0, 0);
TEST(v2);
v7 = AT64(v2, 16);
v3 = AT64(v2, 8);
SET64(a0, 0, AT64(v2, 0));
v6 = AT64(a0, 8);
SET64(a0, 8, v3);
v3 = AT64(a0, 16);
SET64(a0, 16, v7);
SET64(v2, 0, v5);
SET64(v2, 8, v6);
SET64(v2, 16, v3);
v2 = v2 - 24u;
a0 = a0 + 24u;
a1 = a1 - 1u;
if (a1 != 0u) goto L9;
goto L7;
}
rud_trap();
L7:;
L1:;
RUD_G0 = v9 + 48u;
}

static void in_core_slice_edits_swap_ordered_18_toml_value_Value(RUD_IT u64 a0, u64 a1, u64 a2) {
u32 v14 = 0;
u64 v3 = 0, v4 = 0, v5 = 0, v6 = 0, v7 = 0, v8 = 0, v9 = 0, v10 = 0, v11 = 0, v12 = 0, v13 = 0;
RUD_HERE
(void)v12;
(void)v13;
v3 = RUD_G0 - 64u;
if ((s64)v3 >= (s64)16u) {
a1 = a0 + (a1 * 40u);
TEST(a1);
v14 = AT16(a1, 0);
a0 = a0 + (a2 * 40u);
a2 = a0 + 28u;
TEST(a2);
v4 = AT64(a2, 0);
v5 = a0 + 20u;
TEST(v5);
v6 = AT64(v5, 0);
v7 = a0 + 12u;
TEST(v7);
v8 = AT64(v7, 0);
v9 = a0 + 4u;
TEST(v9);
v10 = AT64(v9, 0);
TEST(a0);
SET16(a1, 0, AT16(a0, 0));
v11 = a1 + 4u;
TEST(v3);
SET64(v3, 32, AT64(a1, 4));
v12 = a1 + 12u;
SET64(v3, 40, AT64(a1, 12));
v13 = a1 + 20u;
SET64(v3, 48, AT64(a1, 20));
a1 = a1 + 28u;
TEST(a1);
SET64(v3, 56, AT64(a1, 0));
SET64(v3, 0, v10);
SET64(v3, 8, v8);
SET64(v3, 16, v6);
SET64(v3, 24, v4);
TEST(v11);
SET64(v11, 0, AT64(v3, 0));
SET64(v11, 8, AT64(v3, 8));
SET64(v11, 16, AT64(v3, 16));
SET64(a1, 0, AT64(v3, 24));
SET16(a0, 0, v14);
SET64(a2, 0, AT64(v3, 56));
SET64(v5, 0, AT64(v3, 48));
SET64(v7, 0, AT64(v3, 40));
SET64(v9, 0, AT64(v3, 32));
return;
}
rud_trap();
}

static void in_std_collections_btree_row_Row_reverse_ff41410e3cb3b3e8(RUD_IT u64 a0) {
u32 v18 = 0;
u64 v1 = 0, v2 = 0, v3 = 0, v4 = 0, v5 = 0, v6 = 0, v7 = 0, v8 = 0, v9 = 0, v10 = 0, v11 = 0, v12 = 0;
u64 v13 = 0, v14 = 0, v15 = 0, v16 = 0, v17 = 0;
RUD_HERE
(void)v10;
(void)v11;
(void)v9;
v7 = RUD_G0;
if ((s64)v7 >= (s64)16u) {
TEST(a0);
in_core_slice_edits_slice_T_reverse_483ec8513fd57e54(RUD_AS AT64(a0, 0), AT64(a0, 8));
v1 = AT64(a0, 24);
v2 = AT64(a0, 32);
if (v2 > 15u) goto L2;
if (v2 < 2u) goto L1;
a0 = v2 - 1u;
v2 = ((v2 - 2u) >> 1) + 1u;
L4:;
if (a0 > v3) {
in_core_slice_edits_swap_ordered_18_toml_value_Value(RUD_AS v1, v3, a0);
goto L5;
}
if (a0 >= v3) goto L5;
in_core_slice_edits_swap_ordered_18_toml_value_Value(RUD_AS v1, a0, v3);
L5:;
a0 = a0 - 1u;
v3 = v3 + 1u;
if (v2 != v3) goto L4;
goto L1;
}
rud_trap();
L2:;
a0 = v2 >> 1;
v2 = v1 + ((v2 - a0) * 40u);
v3 = RUD_G0 - 80u;
if ((s64)v3 >= (s64)16u) {
v4 = ((a0 * 40u) + v2) - 40u;
v5 = v3 + 14u;
v6 = v3 + 48u;
L9:;
v8 = v1 + 4u;
TEST(v8);
TEST(v6);
SET64(v6, 0, AT64(v8, 0));
v9 = v1 + 12u;
SET64(v6, 8, AT64(v8, 8));
v10 = v1 + 20u;
SET64(v6, 16, AT64(v8, 16));
v11 = v1 + 28u;
SET64(v6, 24, AT64(v8, 24));
v12 = v4 + 28u;
TEST(v12);
v13 = AT64(v12, 0);
v14 = v4 + 20u;
TEST(v14);
v15 = AT64(v14, 0);
v16 = v4 + 12u;
TEST(v16);
v17 = AT64(v16, 0);
v3 = v4 + 4u;
TEST(v3);
v2 = AT64(v3, 0);
TEST(v1);
v18 = AT16(v1, 0);
TEST(v4);
SET16(v1, 0, AT16(v4, 0));
TEST(v5);
SET64(v5, 0, v2);
SET64(v5, 8, v17);
SET64(v5, 16, v15);
SET64(v5, 24, v13);
SET64(v8, 0, AT64(v5, 0));
SET64(v8, 8, AT64(v5, 8));
SET64(v8, 16, AT64(v5, 16));
SET64(v8, 24, AT64(v5, 24));
SET16(v4, 0, v18);
SET64(v3, 0, AT64(v6, 0));
SET64(v16, 0, AT64(v6, 8));
SET64(v12, 0, AT64(v6, 24));
SET64(v14, 0, AT64(v6, 16));
v4 = v4 - 40u;
v1 = v1 + 40u;
a0 = a0 - 1u;
if (a0 != 0u) goto L9;
goto L7;
}
rud_trap();
L7:;
L1:;
RUD_G0 = v7;
}

static void in_std_collections_btree_row_Row_pop_ff41410e3cb3b3e8(RUD_IT u64 a0, u64 a1) {
u64 v2 = 0, v3 = 0, v4 = 0, v5 = 0, v6 = 0, v7 = 0, v8 = 0, v9 = 0, j0 = 0;
RUD_HERE
v2 = RUD_G0 - 64u;
if ((s64)v2 >= (s64)16u) {
v3 = a1 + 8u;
TEST(v3);
j0 = v3;
v3 = AT64(v3, 0) - 1u;
SET64(j0, 0, v3);
TEST(a1);
v3 = AT64(a1, 0) + (v3 * 24u);
TEST(v3);
v5 = AT64(v3, 16);
v6 = AT64(v3, 8);
v3 = AT64(v3, 0);
v4 = a1 + 32u;
j0 = v4;
v4 = AT64(a1, 32) - 1u;
SET64(a1, 32, v4);
a1 = AT64(a1, 24) + (v4 * 40u);
TEST(a1);
v4 = AT64(a1, 28);
v7 = AT64(a1, 20);
v8 = AT64(a1, 12);
v9 = AT64(a1, 4);
TEST(a0);
SET16(a0, 24, AT16(a1, 0));
TEST(v2);
SET64(v2, 40, v3);
SET64(v2, 48, v6);
SET64(v2, 56, v5);
SET64(v2, 8, v9);
SET64(v2, 16, v8);
SET64(v2, 24, v7);
SET64(v2, 32, v4);
SET64(a0, 16, AT64(v2, 56));
SET64(a0, 8, AT64(v2, 48));
SET64(a0, 0, AT64(v2, 40));
SET64(a0, 52, AT64(v2, 32));
SET64(a0, 44, AT64(v2, 24));
SET64(a0, 36, AT64(v2, 16));
SET64(a0, 28, AT64(v2, 8));
return;
}
rud_trap();
}

static void in_std_collections_btree_node_Node_destroy_031b4c9998add48b(RUD_IT u64 a0) {
u32 v6 = 0, v7 = 0;
u64 v1 = 0, v2 = 0, v3 = 0, v4 = 0, v5 = 0, j0 = 0;
RUD_HERE
(void)v2;
v1 = RUD_G0 - 288u;
RUD_G0 = v1;
if ((s64)v1 >= (s64)16u) {
FILL_FEW(v1 + 24u, 0u, 40u);
TEST(v1);
SET64(v1, 104, 15u);
SET64(v1, 80, 15u);
SET64(v1, 136, a0);
SET64(v1, 112, a0 + 968u);
SET64(v1, 88, a0 + 368u);
SET64(v1, 64, a0 + 8u);
TEST(a0);
v6 = AT16(a0, 2);
SET64(v1, 128, v6 ? 16ull : 0ull);
v7 = AT16(a0, 0);
a0 = (u64)v7 & 65535u;
SET64(v1, 96, a0);
SET64(v1, 72, a0);
SET64(v1, 120, v6 ? (a0 + 1u) : 0ull);
if (v6) {
v4 = v1 + 112u;
if (v7) {
a0 = v1 + 88u;
v2 = v1 + 28u;
v3 = (v1 + 208u) | 4u;
L5:;
j0 = in_std_alloc_vec_Vec_remove_8c0c036898378f4f(RUD_AS v4);
in_std_collections_btree_node_Node_destroy_031b4c9998add48b(RUD_AS j0);
RUD_AGAIN
SET64(v1, 144, 0u);
SET64(v1, 152, 0u);
SET64(v1, 160, 0u);
v5 = v1 + 208u;
FILL_FEW(v5, 0u, 40u);
in_std_alloc_vec_Vec_remove_992c4ce9cbd9eb37(RUD_AS v1 + 144u, v1 + 64u, 0u);
in_std_alloc_vec_Vec_remove_e185903fd0eadc08(RUD_AS v5, a0, 0u);
TEST(v3);
SET64(v1, 28, AT64(v3, 0));
SET64(v1, 36, AT64(v3, 8));
SET64(v1, 44, AT64(v3, 16));
SET64(v1, 52, AT64(v3, 24));
SET64(v1, 16, AT64(v1, 160));
SET64(v1, 8, AT64(v1, 152));
SET64(v1, 0, AT64(v1, 144));
SET16(v1, 24, AT16(v1, 208));
in_core_mem_drop_ef4fffe0996f3d63(RUD_AS v1);
RUD_AGAIN
if (AT64(v1, 72) != 0u) goto L5;
}
j0 = in_std_alloc_vec_Vec_remove_8c0c036898378f4f(RUD_AS v4);
in_std_collections_btree_node_Node_destroy_031b4c9998add48b(RUD_AS j0);
RUD_AGAIN
rud_dealloc(RUD_AS AT64(v1, 136));
RUD_AGAIN
goto L2;
}
a0 = v1 + 64u;
in_std_collections_btree_row_Row_reverse_ff41410e3cb3b3e8(RUD_AS a0);
COPY_FEW(v1 + 208u, a0, 80u);
FILL_FEW(v1 + 144u, 0u, 64u);
if (!(AT64(v1, 216) == 0)) {
L7:;
a0 = v1 + 144u;
in_std_collections_btree_row_Row_pop_ff41410e3cb3b3e8(RUD_AS a0, v1 + 208u);
in_core_mem_drop_ef4fffe0996f3d63(RUD_AS a0);
RUD_AGAIN
if (AT64(v1, 216) != 0u) goto L7;
}
rud_dealloc(RUD_AS AT64(v1, 280));
RUD_AGAIN
L2:;
RUD_G0 = v1 + 288u;
return;
}
rud_trap();
}

static void in_std_alloc_vec_Vec_drop_f8ad6a88bf30276b(RUD_IT u64 a0) {
u32 v7 = 0;
u64 v1 = 0, v2 = 0, v3 = 0, v4 = 0, v6 = 0, j0 = 0;
RUD_HERE
v1 = RUD_G0 - 48u;
RUD_G0 = v1;
if ((s64)v1 >= (s64)16u) {
TEST(a0);
v3 = AT64(a0, 0);
v4 = AT64(a0, 8);
j0 = AT64(a0, 16);
if (!(v4 == 0)) {
v2 = (v1 + 8u) | 4u;
a0 = v3;
L3:;
TEST(a0);
v7 = AT16(a0, 0);
v6 = v1 + 8u;
FILL_FEW(v6, 0u, 40u);
TEST(v2);
SET64(v2, 0, AT64(a0, 4));
SET64(v2, 8, AT64(a0, 12));
SET64(v2, 16, AT64(a0, 20));
SET64(v2, 24, AT64(a0, 28));
TEST(v1);
SET16(v1, 8, v7);
a0 = a0 + 40u;
in_toml_toml_value_Value_Destruct_drop(RUD_AS v6);
RUD_AGAIN
v4 = v4 - 1u;
if (v4 != 0u) goto L3;
}
if (!(j0 == 0)) {
rud_dealloc(RUD_AS v3);
RUD_AGAIN
}
RUD_G0 = v1 + 48u;
return;
}
rud_trap();
}

static void in_toml_toml_value_Value_Destruct_drop(RUD_IT u64 a0) {
u64 v1 = 0, v2 = 0, v3 = 0, v4 = 0;
RUD_HERE
v1 = RUD_G0 - 32u;
RUD_G0 = v1;
if ((s64)v1 >= (s64)16u) {
TEST(a0);
v3 = AT64(a0, 24);
v4 = AT64(a0, 16);
v2 = AT64(a0, 8);
switch ((u32)(u64)AT8(a0, 0) - 1u) {
case 0u: case 1u: case 2u: case 3u: goto L2;
case 4u: goto L4;
case 5u: goto L3;
default: goto L5;
}
L5:;
if (v3 == 0) goto L2;
rud_dealloc(RUD_AS v2);
RUD_AGAIN
goto L2;
L4:;
TEST(v1);
SET64(v1, 24, v3);
SET64(v1, 16, v4);
SET64(v1, 8, v2);
in_std_alloc_vec_Vec_drop_f8ad6a88bf30276b(RUD_AS v1 + 8u);
RUD_AGAIN
goto L2;
L3:;
if ((v2 & 255u) != 1u) goto L2;
in_std_collections_btree_node_Node_destroy_031b4c9998add48b(RUD_AS v4);
RUD_AGAIN
L2:;
RUD_G0 = v1 + 32u;
return;
}
rud_trap();
}

static void in_std_heap_GlobalAllocator_allocate(RUD_IT u64 a0, u64 a1, u64 a2) {
u32 v5 = 0, i0 = 0;
u64 v3 = 0, v4 = 0;
RUD_HERE
v3 = RUD_G0 - 16u;
RUD_G0 = v3;
if ((s64)v3 >= (s64)16u) {
TEST(v3);
SET64(v3, 8, 0u);
SET64(v3, 0, 0u);
if ((s64)a1 < (s64)0u) {
i0 = 1u;
} else {
rud_alloc(RUD_AS v3, a1, a2);
RUD_AGAIN
v5 = AT8(v3, 0);
v4 = v5 & 1u ? AT64(v3, 8) : 0ull;
i0 = (v5 ^ 4294967295u) & 1u;
}
v5 = i0;
TEST(a0);
SET64(a0, 8, v4);
SET8(a0, 0, v5);
RUD_G0 = v3 + 16u;
return;
}
rud_trap();
}

static void in_std_alloc_vec_Vec_push_38edbfb87ce47c7f(RUD_IT u64 a0, u64 a1, u64 a2) {
u32 v9 = 0, v10 = 0, v11 = 0, i0 = 0;
u64 v3 = 0, v4 = 0, v5 = 0, v6 = 0, v7 = 0, v8 = 0, j0 = 0, j1 = 0;
RUD_HERE
v3 = RUD_G0 - 32u;
RUD_G0 = v3;
TEST(a2);
TEST(v3);
SET64(v3, 0, AT64(a2, 4));
SET64(v3, 8, AT64(a2, 12));
SET64(v3, 16, AT64(a2, 20));
SET64(v3, 24, AT64(a2, 28));
if ((s64)v3 >= (s64)16u) {
v9 = AT8(a2, 1);
v10 = AT8(a2, 0);
v8 = a1 + 8u;
TEST(v8);
a2 = AT64(v8, 0);
if (a2 == AT64(v8, 8)) {
a2 = RUD_G0 - 32u;
RUD_G0 = a2;
if ((s64)a2 >= (s64)16u) {
v6 = AT64(v8, 0);
if (v6 == 0xffffffffffffffffull) goto L7;
v4 = (v6 > 3u ? v6 : 3ull) + 1u;
v5 = AT64(v8, 8);
v7 = v5 << 1;
v7 = v4 > v7 ? v4 : v7;
v4 = v5 < 4611686018427387904ull ? v7 : v4;
if (v4 > 230584300921369395ull) goto L7;
j0 = a1;
if (!(v5 == 0)) {
TEST(a1);
v5 = AT64(a1, 0);
TEST(a2);
SET64(a2, 24, 0u);
SET64(a2, 16, 0u);
rud_realloc(RUD_AS a2 + 16u, v5, v6 * 40u, v4 * 40u, 8u);
RUD_AGAIN
if (AT8(a2, 16) == 0) goto L7;
j1 = AT64(a2, 24);
goto L8;
}
in_std_heap_GlobalAllocator_allocate(RUD_AS a2, v7 * 40u, 8u);
RUD_AGAIN
TEST(a2);
if (AT8(a2, 0)) goto L7;
j1 = AT64(a2, 8);
L8:;
TEST(j0);
SET64(j0, 0, j1);
SET64(v8, 8, v4);
v11 = 1u;
L7:;
RUD_G0 = a2 + 32u;
i0 = v11;
goto L5;
}
rud_trap();
L5:;
if (i0 == 0) goto L3;
a2 = AT64(v8, 0);
}
TEST(a1);
a1 = AT64(a1, 0) + (a2 * 40u);
TEST(a1);
SET8(a1, 0, v10);
SET8(a1, 1, v9);
SET64(a1, 4, AT64(v3, 0));
SET64(a1, 12, AT64(v3, 8));
SET64(a1, 20, AT64(v3, 16));
SET64(a1, 28, AT64(v3, 24));
SET64(v8, 0, a2 + 1u);
TEST(a0);
SET16(a0, 8, 0u);
SET64(a0, 12, 0u);
SET64(a0, 20, 0u);
SET64(a0, 28, 0u);
SET64(a0, 36, 0u);
SET8(a0, 0, 0u);
goto L2;
L3:;
TEST(a0);
SET8(a0, 0, 1u);
SET8(a0, 9, v9);
SET8(a0, 8, v10);
SET64(a0, 12, AT64(v3, 0));
SET64(a0, 20, AT64(v3, 8));
SET64(a0, 28, AT64(v3, 16));
SET64(a0, 36, AT64(v3, 24));
L2:;
RUD_G0 = v3 + 32u;
return;
}
rud_trap();
}

static void in_toml_de_tables_close_array(RUD_IT u64 a0, u64 a1, u64 a2) {
u32 v6 = 0;
u64 v3 = 0, v4 = 0, v5 = 0;
RUD_HERE
v3 = RUD_G0 - 208u;
RUD_G0 = v3;
if ((s64)v3 >= (s64)16u) {
TEST(v3);
SET64(v3, 112, 0u);
SET64(v3, 120, 0u);
SET64(v3, 128, 0u);
SET64(v3, 136, 0u);
TEST(a2);
v4 = AT64(a2, 8);
v5 = AT64(a2, 16);
a2 = (u64)AT8(a2, 0);
FILL_FEW(v3 + 40u, 0u, 48u);
FILL_FEW(v3, 0u, 40u);
SET64(v3, 104, v5);
SET64(v3, 96, v4);
SET64(v3, 88, a2);
TEST(a1);
SET64(v3, 160, AT64(a1, 16));
SET64(v3, 152, AT64(a1, 8));
SET64(v3, 144, AT64(a1, 0));
in_toml_de_tables_close(RUD_AS v3 + 112u, v3 + 88u);
RUD_AGAIN
if (AT8(v3, 112) == 0) {
SET64(v3, 24, AT64(v3, 136));
SET64(v3, 16, AT64(v3, 128));
SET64(v3, 8, (u64)AT8(v3, 120));
SET8(v3, 0, 6u);
in_std_alloc_vec_Vec_push_38edbfb87ce47c7f(RUD_AS v3 + 40u, v3 + 144u, v3);
RUD_AGAIN
if (AT8(v3, 40)) goto L3;
TEST(a0);
SET8(a0, 0, 0u);
SET64(a0, 8, AT64(v3, 144));
SET64(a0, 16, AT64(v3, 152));
SET64(a0, 24, AT64(v3, 160));
goto L1;
}
in_std_alloc_vec_Vec_drop_f8ad6a88bf30276b(RUD_AS v3 + 144u);
RUD_AGAIN
TEST(a0);
SET8(a0, 0, 1u);
SET64(a0, 8, 0u);
SET64(a0, 16, 0u);
SET64(a0, 24, 0u);
goto L1;
L3:;
v6 = AT16(v3, 48);
a1 = v3 + 168u;
FILL_FEW(a1, 0u, 40u);
SET16(v3, 168, v6);
SET64(v3, 172, AT64(v3, 52));
SET64(v3, 180, AT64(v3, 60));
SET64(v3, 188, AT64(v3, 68));
SET64(v3, 196, AT64(v3, 76));
in_toml_toml_value_Value_Destruct_drop(RUD_AS a1);
RUD_AGAIN
in_std_alloc_vec_Vec_drop_f8ad6a88bf30276b(RUD_AS v3 + 144u);
RUD_AGAIN
TEST(a0);
SET64(a0, 8, 0u);
SET8(a0, 0, 1u);
SET64(a0, 16, 0u);
SET64(a0, 24, 0u);
goto L1;
}
rud_trap();
L1:;
RUD_G0 = v3 + 208u;
}

static void in_core_cmp_bytes_read_short(RUD_IT u64 a0, u64 a1, u64 a2, u64 a3) {
u64 v4 = 0, v5 = 0, j0 = 0, j1 = 0;
RUD_HERE
if ((s64)RUD_G0 >= (s64)16u) {
if (a3 >= 4u) {
TEST(a2);
v4 = (u64)AT32(a2, 0);
j0 = (v4 << 56) | ((v4 & 65280u) << 40);
j1 = v4;
v4 = a3 - 4u;
a2 = (u64)GET32(a2 + v4, 0);
a3 = a2 << 32;
v5 = j1 | a3;
a3 = (j0 | (((v5 & 16711680u) << 24) | ((v5 & 4278190080u) << 8))) | ((((a2 << 24) & 4278190080u) | ((a2 << 8) & 16711680u)) | (((a2 >> 8) & 65280u) | (a3 >> 56)));
TEST(a1);
a2 = (u64)AT32(a1, 0);
a1 = (u64)GET32(a1 + v4, 0);
j0 = (a2 << 56) | ((a2 & 65280u) << 40);
j1 = a2;
a2 = a1 << 32;
v4 = j1 | a2;
j0 = (j0 | (((v4 & 16711680u) << 24) | ((v4 & 4278190080u) << 8))) | ((((a1 << 24) & 4278190080u) | ((a1 << 8) & 16711680u)) | (((a1 >> 8) & 65280u) | (a2 >> 56)));
goto L2;
}
if (a3 == 0) {
a3 = 0u;
j0 = 0u;
goto L2;
}
v4 = a3 - 1u;
v5 = a3 >> 1;
TEST(a2);
a3 = (u64)GET8(a2 + v4, 0) | (((u64)GET8(a2 + v5, 0) << 8) | ((u64)AT8(a2, 0) << 16));
TEST(a1);
j0 = (u64)GET8(a1 + v4, 0) | (((u64)GET8(a1 + v5, 0) << 8) | ((u64)AT8(a1, 0) << 16));
L2:;
a2 = j0;
TEST(a0);
SET64(a0, 8, a3);
SET64(a0, 0, a2);
return;
}
rud_trap();
}

static u64 in_core_slice_scan_first_in_many_705cbd47592f9dbd(RUD_IT u64 a0, u64 a1, u64 a2) {
u32 i0 = 0, i1 = 0, i2 = 0, i3 = 0;
u64 v3 = 0, v4 = 0, v5 = 0;
RUD_HERE
if ((s64)RUD_G0 >= (s64)16u) {
v5 = a2 - a1;
L3:;
if (v5 < 17u) goto L2;
v5 = v5 - 16u;
TEST(a0);
v3 = AT64(a0, 0) + a1;
TEST(v3);
v4 = AT64(a0, 16) + a1;
TEST(v4);
i1 = ((((u32)(AT8(v3, 5) != AT8(v4, 5)) << 1) | (u32)(AT8(v3, 4) != AT8(v4, 4))) | (((u32)(AT8(v3, 7) != AT8(v4, 7)) << 3) | ((u32)(AT8(v3, 6) != AT8(v4, 6)) << 2))) << 4;
i0 = (((u32)(AT8(v3, 0) != AT8(v4, 0)) | ((u32)(AT8(v3, 1) != AT8(v4, 1)) << 1)) | (((u32)(AT8(v3, 3) != AT8(v4, 3)) << 3) | ((u32)(AT8(v3, 2) != AT8(v4, 2)) << 2))) | i1;
i1 = (((u32)(AT8(v3, 13) != AT8(v4, 13)) << 1) | (u32)(AT8(v3, 12) != AT8(v4, 12))) | (((u32)(AT8(v3, 15) != AT8(v4, 15)) << 3) | ((u32)(AT8(v3, 14) != AT8(v4, 14)) << 2));
i2 = (((u32)(AT8(v3, 9) != AT8(v4, 9)) << 1) | (u32)(AT8(v3, 8) != AT8(v4, 8))) | (((u32)(AT8(v3, 11) != AT8(v4, 11)) << 3) | ((u32)(AT8(v3, 10) != AT8(v4, 10)) << 2));
a1 = a1 + 16u;
v3 = ((u64)rud_ctz32(((i0 | ((i1 << 12) | (i2 << 8))) | 65536u)) + a1) - 16u;
if (v3 >= a1) goto L3;
return v3;
L2:;
a2 = a2 - 16u;
TEST(a0);
a1 = a2 + AT64(a0, 0);
TEST(a1);
a0 = a2 + AT64(a0, 16);
TEST(a0);
i2 = ((((u32)(AT8(a1, 5) != AT8(a0, 5)) << 1) | (u32)(AT8(a1, 4) != AT8(a0, 4))) | (((u32)(AT8(a1, 7) != AT8(a0, 7)) << 3) | ((u32)(AT8(a1, 6) != AT8(a0, 6)) << 2))) << 4;
i1 = (((u32)(AT8(a1, 0) != AT8(a0, 0)) | ((u32)(AT8(a1, 1) != AT8(a0, 1)) << 1)) | (((u32)(AT8(a1, 3) != AT8(a0, 3)) << 3) | ((u32)(AT8(a1, 2) != AT8(a0, 2)) << 2))) | i2;
i2 = (((u32)(AT8(a1, 13) != AT8(a0, 13)) << 1) | (u32)(AT8(a1, 12) != AT8(a0, 12))) | (((u32)(AT8(a1, 15) != AT8(a0, 15)) << 3) | ((u32)(AT8(a1, 14) != AT8(a0, 14)) << 2));
i3 = (((u32)(AT8(a1, 9) != AT8(a0, 9)) << 1) | (u32)(AT8(a1, 8) != AT8(a0, 8))) | (((u32)(AT8(a1, 11) != AT8(a0, 11)) << 3) | ((u32)(AT8(a1, 10) != AT8(a0, 10)) << 2));
return a2 + (u64)rud_ctz32(((i1 | ((i2 << 12) | (i3 << 8))) | 65536u));
}
rud_trap();
return 0;
}

static u64 in_core_slice_scan_ByteMismatchLaneTest_marks_64(RUD_IT u64 a0, u64 a1) {
u32 i0 = 0, i1 = 0, i2 = 0, i3 = 0;
u64 v2 = 0, j0 = 0;
RUD_HERE
if ((s64)RUD_G0 >= (s64)16u) {
TEST(a0);
v2 = AT64(a0, 0) + a1;
TEST(v2);
a0 = AT64(a0, 16) + a1;
TEST(a0);
i0 = ((u32)((s32)(0u - (u32)(AT8(v2, 16) != AT8(a0, 16))) < (s32)0u) | ((u32)((s32)(0u - (u32)(AT8(v2, 17) != AT8(a0, 17))) < (s32)0u) << 1)) | (((u32)((s32)(0u - (u32)(AT8(v2, 19) != AT8(a0, 19))) < (s32)0u) << 3) | ((u32)((s32)(0u - (u32)(AT8(v2, 18) != AT8(a0, 18))) < (s32)0u) << 2));
i1 = (((u32)((s32)(0u - (u32)(AT8(v2, 21) != AT8(a0, 21))) < (s32)0u) << 1) | (u32)((s32)(0u - (u32)(AT8(v2, 20) != AT8(a0, 20))) < (s32)0u)) | (((u32)((s32)(0u - (u32)(AT8(v2, 23) != AT8(a0, 23))) < (s32)0u) << 3) | ((u32)((s32)(0u - (u32)(AT8(v2, 22) != AT8(a0, 22))) < (s32)0u) << 2));
i0 = i0 | (i1 << 4);
i1 = (((u32)((s32)(0u - (u32)(AT8(v2, 29) != AT8(a0, 29))) < (s32)0u) << 1) | (u32)((s32)(0u - (u32)(AT8(v2, 28) != AT8(a0, 28))) < (s32)0u)) | (((u32)((s32)(0u - (u32)(AT8(v2, 31) != AT8(a0, 31))) < (s32)0u) << 3) | ((u32)((s32)(0u - (u32)(AT8(v2, 30) != AT8(a0, 30))) < (s32)0u) << 2));
i2 = (((u32)((s32)(0u - (u32)(AT8(v2, 25) != AT8(a0, 25))) < (s32)0u) << 1) | (u32)((s32)(0u - (u32)(AT8(v2, 24) != AT8(a0, 24))) < (s32)0u)) | (((u32)((s32)(0u - (u32)(AT8(v2, 27) != AT8(a0, 27))) < (s32)0u) << 3) | ((u32)((s32)(0u - (u32)(AT8(v2, 26) != AT8(a0, 26))) < (s32)0u) << 2));
j0 = ((u64)(i0 | ((i1 << 12) | (i2 << 8))) & 65535u) << 16;
i1 = (((u32)((s32)(0u - (u32)(AT8(v2, 1) != AT8(a0, 1))) < (s32)0u) << 1) | (u32)((s32)(0u - (u32)(AT8(v2, 0) != AT8(a0, 0))) < (s32)0u)) | (((u32)((s32)(0u - (u32)(AT8(v2, 3) != AT8(a0, 3))) < (s32)0u) << 3) | ((u32)((s32)(0u - (u32)(AT8(v2, 2) != AT8(a0, 2))) < (s32)0u) << 2));
i2 = (((u32)((s32)(0u - (u32)(AT8(v2, 5) != AT8(a0, 5))) < (s32)0u) << 1) | (u32)((s32)(0u - (u32)(AT8(v2, 4) != AT8(a0, 4))) < (s32)0u)) | (((u32)((s32)(0u - (u32)(AT8(v2, 7) != AT8(a0, 7))) < (s32)0u) << 3) | ((u32)((s32)(0u - (u32)(AT8(v2, 6) != AT8(a0, 6))) < (s32)0u) << 2));
i1 = i1 | (i2 << 4);
i2 = (((u32)((s32)(0u - (u32)(AT8(v2, 13) != AT8(a0, 13))) < (s32)0u) << 1) | (u32)((s32)(0u - (u32)(AT8(v2, 12) != AT8(a0, 12))) < (s32)0u)) | (((u32)((s32)(0u - (u32)(AT8(v2, 15) != AT8(a0, 15))) < (s32)0u) << 3) | ((u32)((s32)(0u - (u32)(AT8(v2, 14) != AT8(a0, 14))) < (s32)0u) << 2));
i3 = (((u32)((s32)(0u - (u32)(AT8(v2, 9) != AT8(a0, 9))) < (s32)0u) << 1) | (u32)((s32)(0u - (u32)(AT8(v2, 8) != AT8(a0, 8))) < (s32)0u)) | (((u32)((s32)(0u - (u32)(AT8(v2, 11) != AT8(a0, 11))) < (s32)0u) << 3) | ((u32)((s32)(0u - (u32)(AT8(v2, 10) != AT8(a0, 10))) < (s32)0u) << 2));
j0 = j0 | ((u64)(i1 | ((i2 << 12) | (i3 << 8))) & 65535u);
i1 = (((u32)((s32)(0u - (u32)(AT8(v2, 33) != AT8(a0, 33))) < (s32)0u) << 1) | (u32)((s32)(0u - (u32)(AT8(v2, 32) != AT8(a0, 32))) < (s32)0u)) | (((u32)((s32)(0u - (u32)(AT8(v2, 35) != AT8(a0, 35))) < (s32)0u) << 3) | ((u32)((s32)(0u - (u32)(AT8(v2, 34) != AT8(a0, 34))) < (s32)0u) << 2));
i2 = (((u32)((s32)(0u - (u32)(AT8(v2, 37) != AT8(a0, 37))) < (s32)0u) << 1) | (u32)((s32)(0u - (u32)(AT8(v2, 36) != AT8(a0, 36))) < (s32)0u)) | (((u32)((s32)(0u - (u32)(AT8(v2, 39) != AT8(a0, 39))) < (s32)0u) << 3) | ((u32)((s32)(0u - (u32)(AT8(v2, 38) != AT8(a0, 38))) < (s32)0u) << 2));
i1 = i1 | (i2 << 4);
i2 = (((u32)((s32)(0u - (u32)(AT8(v2, 45) != AT8(a0, 45))) < (s32)0u) << 1) | (u32)((s32)(0u - (u32)(AT8(v2, 44) != AT8(a0, 44))) < (s32)0u)) | (((u32)((s32)(0u - (u32)(AT8(v2, 47) != AT8(a0, 47))) < (s32)0u) << 3) | ((u32)((s32)(0u - (u32)(AT8(v2, 46) != AT8(a0, 46))) < (s32)0u) << 2));
i3 = (((u32)((s32)(0u - (u32)(AT8(v2, 41) != AT8(a0, 41))) < (s32)0u) << 1) | (u32)((s32)(0u - (u32)(AT8(v2, 40) != AT8(a0, 40))) < (s32)0u)) | (((u32)((s32)(0u - (u32)(AT8(v2, 43) != AT8(a0, 43))) < (s32)0u) << 3) | ((u32)((s32)(0u - (u32)(AT8(v2, 42) != AT8(a0, 42))) < (s32)0u) << 2));
j0 = j0 | (((u64)(i1 | ((i2 << 12) | (i3 << 8))) & 65535u) << 32);
i1 = (((u32)((s32)(0u - (u32)(AT8(v2, 49) != AT8(a0, 49))) < (s32)0u) << 1) | (u32)((s32)(0u - (u32)(AT8(v2, 48) != AT8(a0, 48))) < (s32)0u)) | (((u32)((s32)(0u - (u32)(AT8(v2, 51) != AT8(a0, 51))) < (s32)0u) << 3) | ((u32)((s32)(0u - (u32)(AT8(v2, 50) != AT8(a0, 50))) < (s32)0u) << 2));
i2 = (((u32)((s32)(0u - (u32)(AT8(v2, 53) != AT8(a0, 53))) < (s32)0u) << 1) | (u32)((s32)(0u - (u32)(AT8(v2, 52) != AT8(a0, 52))) < (s32)0u)) | (((u32)((s32)(0u - (u32)(AT8(v2, 55) != AT8(a0, 55))) < (s32)0u) << 3) | ((u32)((s32)(0u - (u32)(AT8(v2, 54) != AT8(a0, 54))) < (s32)0u) << 2));
i1 = i1 | (i2 << 4);
i2 = (((u32)((s32)(0u - (u32)(AT8(v2, 61) != AT8(a0, 61))) < (s32)0u) << 1) | (u32)((s32)(0u - (u32)(AT8(v2, 60) != AT8(a0, 60))) < (s32)0u)) | (((u32)((s32)(0u - (u32)(AT8(v2, 63) != AT8(a0, 63))) < (s32)0u) << 3) | ((u32)((s32)(0u - (u32)(AT8(v2, 62) != AT8(a0, 62))) < (s32)0u) << 2));
i3 = (((u32)((s32)(0u - (u32)(AT8(v2, 57) != AT8(a0, 57))) < (s32)0u) << 1) | (u32)((s32)(0u - (u32)(AT8(v2, 56) != AT8(a0, 56))) < (s32)0u)) | (((u32)((s32)(0u - (u32)(AT8(v2, 59) != AT8(a0, 59))) < (s32)0u) << 3) | ((u32)((s32)(0u - (u32)(AT8(v2, 58) != AT8(a0, 58))) < (s32)0u) << 2));
return j0 | ((u64)(i1 | ((i2 << 12) | (i3 << 8))) << 48);
}
rud_trap();
return 0;
}

static u32 in_core_cmp_text_RefStrOrd_cmp(RUD_IT u64 a0, u64 a1) {
u32 v9 = 0, i0 = 0, i1 = 0, i2 = 0, i3 = 0;
u64 v2 = 0, v3 = 0, v4 = 0, v5 = 0, v6 = 0, v7 = 0, v8 = 0, j0 = 0, j1 = 0, j2 = 0;
RUD_HERE
v4 = RUD_G0 - 48u;
RUD_G0 = v4;
if ((s64)v4 >= (s64)16u) {
TEST(a1);
v2 = AT64(a1, 0);
TEST(a0);
v3 = AT64(a0, 0);
v6 = AT64(a1, 8);
v7 = AT64(a0, 8);
v5 = v6 < v7 ? v6 : v7;
if (v5 <= 7u) {
in_core_cmp_bytes_read_short(RUD_AS v4, v3, v2, v5);
TEST(v4);
v8 = AT64(v4, 8);
j0 = AT64(v4, 0);
goto L3;
}
a0 = v5 - 8u;
a1 = a0 < 8u ? a0 : 8ull;
a0 = GET64(v2 + a1, 0);
j0 = (((a0 << 56) | ((a0 & 65280u) << 40)) | (((a0 & 16711680u) << 24) | ((a0 & 4278190080u) << 8))) | ((((a0 >> 8) & 4278190080u) | ((a0 >> 24) & 16711680u)) | (((a0 >> 40) & 65280u) | (a0 >> 56)));
TEST(v2);
a0 = AT64(v2, 0);
j1 = (((a0 << 56) | ((a0 & 65280u) << 40)) | (((a0 & 16711680u) << 24) | ((a0 & 4278190080u) << 8))) | ((((a0 >> 8) & 4278190080u) | ((a0 >> 24) & 16711680u)) | (((a0 >> 40) & 65280u) | (a0 >> 56)));
TEST(v3);
j2 = a0;
a0 = AT64(v3, 0);
v9 = j2 == a0;
v8 = v9 ? j0 : j1;
a1 = GET64(a1 + v3, 0);
j0 = (((a1 << 56) | ((a1 & 65280u) << 40)) | (((a1 & 16711680u) << 24) | ((a1 & 4278190080u) << 8))) | ((((a1 >> 8) & 4278190080u) | ((a1 >> 24) & 16711680u)) | (((a1 >> 40) & 65280u) | (a1 >> 56)));
j1 = (((a0 << 56) | ((a0 & 65280u) << 40)) | (((a0 & 16711680u) << 24) | ((a0 & 4278190080u) << 8))) | ((((a0 >> 8) & 4278190080u) | ((a0 >> 24) & 16711680u)) | (((a0 >> 40) & 65280u) | (a0 >> 56)));
j0 = v9 ? j0 : j1;
L3:;
a1 = j0;
if (a1 != v8) {
i0 = a1 < v8 ? 0u : 2u;
goto L2;
}
if (v5 <= 16u) { i0 = v6 == v7 ? 1u : (v6 > v7 ? 0u : 2u); goto L2; }
TEST(v4);
SET64(v4, 40, v6);
SET64(v4, 32, v2);
SET64(v4, 24, v7);
SET64(v4, 16, v3);
j0 = v5;
if (v5 <= 95u) {
j1 = in_core_slice_scan_first_in_many_705cbd47592f9dbd(RUD_AS v4 + 16u, 16u, v5);
goto L6;
}
TEST(v3);
TEST(v2);
i1 = (((u32)(AT8(v3, 17) != AT8(v2, 17)) << 1) | (u32)(AT8(v3, 16) != AT8(v2, 16))) | (((u32)(AT8(v3, 19) != AT8(v2, 19)) << 3) | ((u32)(AT8(v3, 18) != AT8(v2, 18)) << 2));
i2 = (((u32)(AT8(v3, 21) != AT8(v2, 21)) << 1) | (u32)(AT8(v3, 20) != AT8(v2, 20))) | (((u32)(AT8(v3, 23) != AT8(v2, 23)) << 3) | ((u32)(AT8(v3, 22) != AT8(v2, 22)) << 2));
i1 = i1 | (i2 << 4);
i2 = (((u32)(AT8(v3, 29) != AT8(v2, 29)) << 1) | (u32)(AT8(v3, 28) != AT8(v2, 28))) | (((u32)(AT8(v3, 31) != AT8(v2, 31)) << 3) | ((u32)(AT8(v3, 30) != AT8(v2, 30)) << 2));
i3 = (((u32)(AT8(v3, 25) != AT8(v2, 25)) << 1) | (u32)(AT8(v3, 24) != AT8(v2, 24))) | (((u32)(AT8(v3, 27) != AT8(v2, 27)) << 3) | ((u32)(AT8(v3, 26) != AT8(v2, 26)) << 2));
v9 = rud_ctz32(((i1 | ((i2 << 12) | (i3 << 8))) | 65536u));
if (v9 < 16u) {
j1 = (u64)(v9 + 16u);
goto L6;
}
a0 = v5 - 32u;
a1 = 32u;
L9:;
j1 = in_core_slice_scan_ByteMismatchLaneTest_marks_64(RUD_AS v4 + 16u, a1);
if (j1 == 0) {
a1 = a1 + 64u;
a0 = a0 - 64u;
if (a0 > 63u) goto L9;
}
j1 = in_core_slice_scan_first_in_many_705cbd47592f9dbd(RUD_AS v4 + 16u, a1, v5);
L6:;
a1 = j1;
if (j0 > a1) {
i0 = GET8(a1 + v3, 0) < GET8(a1 + v2, 0) ? 0u : 2u;
goto L2;
}
i0 = v6 == v7 ? 1u : (v6 > v7 ? 0u : 2u);
L2:;
RUD_G0 = v4 + 48u;
return i0;
}
rud_trap();
return 0;
}

static u32 in_std_collections_btree_map_queries_QueryTarget_order_222056d77792(RUD_IT u64 a0, u64 a1) {
u32 i0 = 0;
u64 v2 = 0, v3 = 0, v4 = 0;
RUD_HERE
v2 = RUD_G0 - 32u;
RUD_G0 = v2;
if ((s64)v2 >= (s64)16u) {
TEST(a1);
v3 = AT64(a1, 8);
v4 = AT64(a1, 0);
TEST(a0);
a1 = AT64(a0, 0);
TEST(a1);
a0 = AT64(a1, 0);
TEST(v2);
SET64(v2, 24, AT64(a1, 8));
SET64(v2, 16, a0);
SET64(v2, 8, v3);
SET64(v2, 0, v4);
i0 = in_core_cmp_text_RefStrOrd_cmp(RUD_AS v2 + 16u, v2);
RUD_G0 = v2 + 32u;
return i0 & 255u;
}
rud_trap();
return 0;
}

static void in_byn_mgfn_shared_std_collections_btree_node_parts_Parts_new_3401b(RUD_IT u64 a0, u64 a1, u64 a2, u64 a3) {
u32 v12 = 0;
u64 v4 = 0, v5 = 0, v6 = 0, v7 = 0, v8 = 0, v9 = 0, v10 = 0, v11 = 0, j0 = 0;
RUD_HERE
v4 = RUD_G0 - 32u;
RUD_G0 = v4;
if ((s64)v4 >= (s64)16u) {
if (a1 == 0) {
in_std_heap_GlobalAllocator_allocate(RUD_AS v4, a2, 8u);
RUD_AGAIN
TEST(v4);
v12 = AT8(v4, 0);
j0 = AT64(v4, 8);
goto L2;
}
in_std_heap_GlobalAllocator_allocate(RUD_AS v4 + 16u, a3, 8u);
RUD_AGAIN
TEST(v4);
v12 = AT8(v4, 16);
j0 = AT64(v4, 24);
L2:;
v5 = j0;
if (v12 == 0) {
TEST(v5);
SET16(v5, 2, (u32)a1);
v11 = a1 == 0 ? 0ull : 16ull;
v10 = v5 + a2;
v9 = v5 + 368u;
v8 = v5 + 8u;
v6 = 15u;
v7 = v5;
}
TEST(a0);
SET8(a0, 0, v12);
SET64(a0, 80, v7);
SET64(a0, 72, v11);
SET64(a0, 64, 0u);
SET64(a0, 56, v10);
SET64(a0, 48, v6);
SET64(a0, 40, 0u);
SET64(a0, 32, v9);
SET64(a0, 24, v6);
SET64(a0, 16, 0u);
SET64(a0, 8, v8);
RUD_G0 = v4 + 32u;
return;
}
rud_trap();
}

static void in_std_collections_btree_node_parts_Parts_new_3401b5eb79e7930a(RUD_IT u64 a0, u64 a1) {
RUD_NONE
in_byn_mgfn_shared_std_collections_btree_node_parts_Parts_new_3401b(RUD_AS a0, a1, 968u, 1096u);
}

static void in_std_alloc_vec_lodged_Vec_T_Lodged_append_tail_483ec8513fd57e54(RUD_IT u64 a0, u64 a1) {
u64 v2 = 0, v3 = 0, v4 = 0, v5 = 0, v6 = 0, v7 = 0;
RUD_HERE
if ((s64)RUD_G0 >= (s64)16u) {
TEST(a1);
v5 = AT64(a1, 8) - 8u;
v4 = v5 * 24u;
TEST(a0);
v2 = AT64(a0, 0) + (AT64(a0, 8) * 24u);
v3 = AT64(a1, 0) + 192u;
if (v4 > (v2 - v3)) {
v4 = v5;
if (v4 == 0) goto L2;
L4:;
TEST(v3);
v6 = AT64(v3, 0);
v7 = AT64(v3, 8);
TEST(v2);
SET64(v2, 16, AT64(v3, 16));
SET64(v2, 8, v7);
SET64(v2, 0, v6);
v2 = v2 + 24u;
v3 = v3 + 24u;
v4 = v4 - 1u;
if (v4 != 0u) goto L4;
goto L2;
}
if (v4 == 0) goto L2;
COPY(v2, v3, v4);
L2:;
a0 = a0 + 8u;
TEST(a0);
SET64(a0, 0, AT64(a0, 0) + v5);
SET64(a1, 8, 8u);
return;
}
rud_trap();
}

static void in_std_alloc_vec_lodged_Vec_T_Lodged_insert_reserved_483ec8513fd57e(RUD_IT u64 a0, u64 a1, u64 a2) {
u64 v3 = 0, v4 = 0, v5 = 0, v6 = 0, v7 = 0, v8 = 0, v9 = 0, v10 = 0, v11 = 0;
RUD_HERE
v8 = RUD_G0 - 32u;
if ((s64)v8 >= (s64)16u) {
v4 = a0 + 8u;
TEST(v4);
v6 = AT64(v4, 0);
TEST(a2);
v5 = AT64(a2, 0);
v9 = AT64(a2, 8);
a2 = AT64(a2, 16);
SET64(v4, 0, 0u);
v4 = a0 + 16u;
TEST(v4);
v11 = AT64(v4, 0);
SET64(v4, 0, 0u);
TEST(v8);
SET64(v8, 24, a2);
SET64(v8, 16, v9);
SET64(v8, 8, v5);
TEST(a0);
v4 = AT64(a0, 0);
if (a1 == 0xffffffffffffffffull) {
v10 = v6 + 1u;
if (v10 >= 86u) {
a2 = 0u;
v5 = v4;
L5:;
v9 = a2;
if (!(v9 == 0)) {
a2 = 2040u;
L8:;
v7 = a2 + v5;
v3 = v7 - 24u;
v7 = v7 - 48u;
TEST(v7);
SET64(v7, 40, AT64(v7, 16));
SET64(v7, 32, AT64(v7, 8));
SET64(v7, 24, AT64(v7, 0));
a2 = a2 - 24u;
if (a2 != 0u) goto L8;
goto L6;
}
v3 = 0u;
L9:;
a2 = v3 + v5;
v7 = a2 - 24u;
TEST(v7);
SET64(v7, 40, AT64(v7, 16));
SET64(v7, 32, AT64(v7, 8));
SET64(v7, 24, AT64(v7, 0));
v3 = v3 + 24u;
if (v3 != 2040u) goto L9;
L6:;
v5 = v5 + 2040u;
a2 = v9 + 85u;
if ((v10 - a2) > 85u) goto L5;
if (a2 == v10) goto L2;
v3 = (v6 - v9) - 84u;
a2 = ((v6 * 24u) + v4) - 24u;
L10:;
TEST(a2);
SET64(a2, 40, AT64(a2, 16));
SET64(a2, 32, AT64(a2, 8));
SET64(a2, 24, AT64(a2, 0));
a2 = a2 - 24u;
v3 = v3 - 1u;
if (!(v3 == 0)) goto L10;
goto L2;
}
if (v10 == 0) goto L2;
v9 = a1 * 24u;
a2 = v4;
L11:;
v5 = a2 + v9;
TEST(v5);
TEST(a2);
SET64(a2, 16, AT64(v5, 16));
SET64(a2, 8, AT64(v5, 8));
SET64(a2, 0, AT64(v5, 0));
a2 = a2 + 24u;
v10 = v10 - 1u;
if (!(v10 == 0)) goto L11;
goto L2;
}
if (a1 == v6) goto L2;
v3 = v6 - a1;
a2 = ((v6 * 24u) + v4) - 24u;
L12:;
TEST(a2);
SET64(a2, 40, AT64(a2, 16));
SET64(a2, 32, AT64(a2, 8));
SET64(a2, 24, AT64(a2, 0));
a2 = a2 - 24u;
v3 = v3 - 1u;
if (v3 != 0u) goto L12;
L2:;
a1 = v4 + (a1 * 24u);
TEST(a1);
SET64(a1, 16, AT64(v8, 24));
SET64(a1, 8, AT64(v8, 16));
SET64(a1, 0, AT64(v8, 8));
SET64(a0, 16, v11);
SET64(a0, 8, v6 + 1u);
SET64(a0, 0, v4);
return;
}
rud_trap();
}

static void in_std_alloc_vec_lodged_Vec_T_Lodged_insert_reserved_18_toml_value(RUD_IT u64 a0, u64 a1, u64 a2) {
u32 v13 = 0, v14 = 0;
u64 v3 = 0, v4 = 0, v5 = 0, v6 = 0, v7 = 0, v8 = 0, v9 = 0, v10 = 0, v11 = 0, v12 = 0, j0 = 0;
RUD_HERE
v6 = RUD_G0 - 48u;
RUD_G0 = v6;
if ((s64)v6 >= (s64)16u) {
TEST(a2);
v13 = AT8(a2, 1);
v14 = AT8(a2, 0);
v3 = a0 + 8u;
TEST(v3);
v8 = AT64(v3, 0);
v4 = AT64(a2, 4);
v5 = AT64(a2, 12);
v7 = AT64(a2, 20);
a2 = AT64(a2, 28);
SET64(v3, 0, 0u);
v3 = a0 + 16u;
TEST(v3);
v12 = AT64(v3, 0);
SET64(v3, 0, 0u);
TEST(v6);
SET64(v6, 40, a2);
SET64(v6, 32, v7);
SET64(v6, 24, v5);
SET64(v6, 16, v4);
TEST(a0);
a2 = AT64(a0, 0);
v7 = v6 + 16u;
v3 = a1 + 1u;
if (v3 == 0) {
v9 = v8 + 1u;
if (v9 < 52u) goto L2;
v3 = a2;
v5 = 0u;
L5:;
if (v5 == 0) {
v10 = 0u;
L8:;
v4 = v3 + v10;
TEST(v4);
SET16(v4, 0, GET16(v4 - 40u, 0));
v11 = v4 - 36u;
TEST(v11);
SET64(v4, 4, AT64(v11, 0));
SET64(v4, 12, AT64(v11, 8));
SET64(v4, 20, AT64(v11, 16));
SET64(v4, 28, AT64(v11, 24));
v10 = v10 + 40u;
if (v10 != 2040u) goto L8;
goto L6;
}
v4 = a2 + (v5 * 40u);
in_core_slots_raw_move_up_18_toml_value_Value(RUD_AS v4 - 40u, v4, 51u);
L6:;
v3 = v3 + 2040u;
j0 = v8 - v5;
v5 = v5 + 51u;
v4 = j0 - 50u;
if (v4 > 51u) goto L5;
v3 = a2 + (v5 * 40u);
in_core_slots_raw_move_up_18_toml_value_Value(RUD_AS v3 - 40u, v3, v4);
goto L1;
}
in_core_slots_raw_move_up_18_toml_value_Value(RUD_AS a2 + (a1 * 40u), a2 + (v3 * 40u), v8 - a1);
v9 = v8 + 1u;
goto L1;
}
rud_trap();
L2:;
v3 = a2 + (v3 * 40u);
in_core_slots_raw_move_down_18_toml_value_Value(RUD_AS v3 - 40u, v3, v9);
L1:;
a1 = a2 + (a1 * 40u);
TEST(a1);
SET8(a1, 0, v14);
SET8(a1, 1, v13);
SET64(a1, 4, AT64(v6, 16));
SET64(a1, 12, AT64(v6, 24));
SET64(a1, 20, AT64(v6, 32));
SET64(a1, 28, AT64(v6, 40));
SET64(a0, 16, v12);
SET64(a0, 8, v9);
SET64(a0, 0, a2);
RUD_G0 = v6 + 48u;
}

static void in_core_slice_edits_swap_ordered_22_toml_de_tables_Node(RUD_IT u64 a0, u64 a1, u64 a2) {
u32 v10 = 0, v11 = 0;
u64 v3 = 0, v4 = 0, v5 = 0, v6 = 0, v7 = 0, v8 = 0, v9 = 0;
RUD_HERE
(void)v6;
(void)v8;
v3 = RUD_G0 - 80u;
if ((s64)v3 >= (s64)16u) {
a1 = a0 + (a1 * 56u);
TEST(a1);
v10 = AT16(a1, 0);
v4 = v3 + 40u;
v5 = a1 + 8u;
COPY_FEW(v4, v5, 40u);
v6 = a1 + 48u;
v7 = AT64(a1, 48);
a0 = a0 + (a2 * 56u);
TEST(a0);
v11 = AT16(a0, 0);
a2 = a0 + 8u;
COPY_FEW(v3, a2, 40u);
v8 = a0 + 48u;
v9 = AT64(a0, 48);
SET16(a1, 0, v11);
COPY_FEW(v5, v3, 40u);
SET64(a1, 48, v9);
SET16(a0, 0, v10);
COPY_FEW(a2, v4, 40u);
SET64(a0, 48, v7);
return;
}
rud_trap();
}

static void in_std_collections_btree_row_Row_reverse_377167ce062cdc45(RUD_IT u64 a0) {
u32 v12 = 0, v13 = 0;
u64 v1 = 0, v2 = 0, v3 = 0, v4 = 0, v5 = 0, v6 = 0, v7 = 0, v8 = 0, v9 = 0, v10 = 0, v11 = 0;
RUD_HERE
(void)v9;
v7 = RUD_G0;
if ((s64)v7 >= (s64)16u) {
TEST(a0);
in_core_slice_edits_slice_T_reverse_483ec8513fd57e54(RUD_AS AT64(a0, 0), AT64(a0, 8));
v3 = AT64(a0, 24);
v1 = AT64(a0, 32);
if (v1 > 15u) goto L2;
if (v1 < 2u) goto L1;
a0 = v1 - 1u;
v1 = ((v1 - 2u) >> 1) + 1u;
L4:;
if (a0 > v2) {
in_core_slice_edits_swap_ordered_22_toml_de_tables_Node(RUD_AS v3, v2, a0);
goto L5;
}
if (a0 >= v2) goto L5;
in_core_slice_edits_swap_ordered_22_toml_de_tables_Node(RUD_AS v3, a0, v2);
L5:;
a0 = a0 - 1u;
v2 = v2 + 1u;
if (v1 != v2) goto L4;
goto L1;
}
rud_trap();
L2:;
a0 = v1 >> 1;
v1 = v3 + ((v1 - a0) * 56u);
v2 = RUD_G0 - 96u;
if ((s64)v2 >= (s64)16u) {
v4 = ((a0 * 56u) + v1) - 56u;
v5 = v2 + 10u;
v6 = v2 + 56u;
L9:;
TEST(v3);
v12 = AT16(v3, 0);
v8 = v3 + 8u;
COPY_FEW(v6, v8, 40u);
v9 = v3 + 48u;
v10 = AT64(v3, 48);
TEST(v4);
v13 = AT16(v4, 0);
v11 = v4 + 8u;
COPY_FEW(v5, v11, 40u);
v2 = v4 + 48u;
v1 = AT64(v4, 48);
SET16(v3, 0, v13);
COPY_FEW(v8, v5, 40u);
SET64(v3, 48, v1);
SET16(v4, 0, v12);
COPY_FEW(v11, v6, 40u);
SET64(v4, 48, v10);
v4 = v4 - 56u;
v3 = v3 + 56u;
a0 = a0 - 1u;
if (a0 != 0u) goto L9;
goto L7;
}
rud_trap();
L7:;
L1:;
RUD_G0 = v7;
}

static void in_core_slots_raw_move_down_22_toml_de_tables_Node(RUD_IT u64 a0, u64 a1, u64 a2) {
u32 v8 = 0;
u64 v3 = 0, v4 = 0, v5 = 0, v6 = 0, v7 = 0;
RUD_HERE
v5 = RUD_G0 - 48u;
if ((s64)v5 >= (s64)16u) {
if (!(a2 == 0)) {
L3:;
v3 = a0 + v4;
TEST(v3);
v8 = AT16(v3, 0);
v6 = v5 + 8u;
COPY_FEW(v6, v3 + 8u, 40u);
v7 = AT64(v3, 48);
v3 = a1 + v4;
TEST(v3);
SET16(v3, 0, v8);
COPY_FEW(v3 + 8u, v6, 40u);
SET64(v3, 48, v7);
v4 = v4 + 56u;
a2 = a2 - 1u;
if (a2 != 0u) goto L3;
}
return;
}
rud_trap();
}

static void in_core_slots_raw_move_up_22_toml_de_tables_Node(RUD_IT u64 a0, u64 a1, u64 a2) {
u32 v8 = 0;
u64 v3 = 0, v4 = 0, v5 = 0, v6 = 0, v7 = 0;
RUD_HERE
v5 = RUD_G0 - 48u;
if ((s64)v5 >= (s64)16u) {
if (!(a2 == 0)) {
v4 = a2 * 56u;
L3:;
v3 = a0 + v4;
v8 = GET16(v3 - 56u, 0);
v6 = v5 + 8u;
COPY_FEW(v6, v3 - 48u, 40u);
v7 = GET64(v3 - 8u, 0);
v3 = a1 + v4;
PUT16(v3 - 56u, 0, v8);
COPY_FEW(v3 - 48u, v6, 40u);
PUT64(v3 - 8u, 0, v7);
a1 = a1 - 56u;
a0 = a0 - 56u;
a2 = a2 - 1u;
if (a2 != 0u) goto L3;
}
return;
}
rud_trap();
}

static void in_std_alloc_vec_Vec_remove_ead69053adb5db67(RUD_IT u64 a0, u64 a1, u64 a2) {
u32 v12 = 0, v13 = 0;
u64 v3 = 0, v4 = 0, v5 = 0, v6 = 0, v7 = 0, v8 = 0, v9 = 0, v10 = 0, v11 = 0, j0 = 0;
RUD_HERE
v4 = RUD_G0 - 48u;
RUD_G0 = v4;
if ((s64)v4 >= (s64)16u) {
v3 = a1 + 8u;
TEST(v3);
v5 = AT64(v3, 0);
SET64(v3, 0, 0u);
v3 = a1 + 16u;
TEST(v3);
v8 = AT64(v3, 0);
SET64(v3, 0, 0u);
TEST(a1);
v7 = AT64(a1, 0);
v9 = a2 * 56u;
v3 = v7 + v9;
TEST(v3);
v12 = AT8(v3, 0);
v13 = AT8(v3, 1);
v10 = AT64(v3, 48);
COPY_FEW(v4 + 8u, v3 + 8u, 40u);
v11 = v5 - 1u;
v6 = v11 - a2;
if (v6 < 37u) goto L3;
a2 = a2 ^ 0xffffffffffffffffull;
v3 = v7 + v9;
L5:;
in_core_slots_raw_move_down_22_toml_de_tables_Node(RUD_AS v3 + 56u, v3, 36u);
v3 = v3 + 2016u;
a2 = a2 - 36u;
v6 = v5 + a2;
if (v6 > 36u) goto L5;
v5 = v3 + 56u;
if (!(a2 == 0)) { j0 = v5; goto L2; }
in_core_slots_raw_move_up_22_toml_de_tables_Node(RUD_AS v5, v3, v6);
goto L1;
}
rud_trap();
L3:;
j0 = v3 + 56u;
L2:;
in_core_slots_raw_move_down_22_toml_de_tables_Node(RUD_AS j0, v3, v6);
L1:;
SET64(a1, 0, v7);
SET64(a1, 16, v8);
SET64(a1, 8, v11);
TEST(a0);
SET8(a0, 1, v13);
SET8(a0, 0, v12);
COPY_FEW(a0 + 8u, v4 + 8u, 40u);
SET64(a0, 48, v10);
RUD_G0 = v4 + 48u;
}

static void in_std_collections_btree_node_Node_destroy_dc0ad195889b9f50(RUD_IT u64 a0) {
u32 v7 = 0, v8 = 0;
u64 v1 = 0, v2 = 0, v3 = 0, v4 = 0, v5 = 0, v6 = 0, j0 = 0;
RUD_HERE
v1 = RUD_G0 - 288u;
RUD_G0 = v1;
if ((s64)v1 >= (s64)16u) {
TEST(v1);
SET64(v1, 40, 15u);
SET64(v1, 16, 15u);
SET64(v1, 72, a0);
SET64(v1, 48, a0 + 1208u);
SET64(v1, 24, a0 + 368u);
SET64(v1, 0, a0 + 8u);
TEST(a0);
v8 = AT16(a0, 2);
SET64(v1, 64, v8 ? 16ull : 0ull);
v7 = AT16(a0, 0);
a0 = (u64)v7 & 65535u;
SET64(v1, 32, a0);
SET64(v1, 8, a0);
SET64(v1, 56, v8 ? (a0 + 1u) : 0ull);
if (v8 == 0) goto L2;
v2 = v1 + 48u;
if (v7) {
v3 = v1 + 24u;
v4 = v1 + 234u;
v5 = v1 + 166u;
v6 = v1 + 88u;
L5:;
j0 = in_std_alloc_vec_Vec_remove_8c0c036898378f4f(RUD_AS v2);
in_std_collections_btree_node_Node_destroy_dc0ad195889b9f50(RUD_AS j0);
RUD_AGAIN
SET32(v1, 160, 0u);
SET16(v1, 164, 0u);
SET64(v1, 136, 0u);
SET64(v1, 144, 0u);
SET64(v1, 152, 0u);
a0 = v1 + 80u;
FILL_FEW(a0, 0u, 56u);
in_std_alloc_vec_Vec_remove_992c4ce9cbd9eb37(RUD_AS v1 + 136u, v1, 0u);
in_std_alloc_vec_Vec_remove_ead69053adb5db67(RUD_AS a0, v3, 0u);
SET64(v1, 224, AT64(v1, 152));
SET64(v1, 216, AT64(v1, 144));
SET64(v1, 208, AT64(v1, 136));
v7 = AT16(v1, 80);
a0 = AT64(v1, 128);
COPY_FEW(v5, v6, 40u);
COPY_FEW(v4, v1 + 160u, 46u);
SET64(v1, 280, a0);
SET16(v1, 232, v7);
in_std_collections_Destruct_tuple2_drop_f30e29efdc7402b0(RUD_AS v1 + 208u);
RUD_AGAIN
if (AT64(v1, 8) != 0u) goto L5;
}
j0 = in_std_alloc_vec_Vec_remove_8c0c036898378f4f(RUD_AS v2);
in_std_collections_btree_node_Node_destroy_dc0ad195889b9f50(RUD_AS j0);
RUD_AGAIN
rud_dealloc(RUD_AS AT64(v1, 72));
RUD_AGAIN
goto L1;
}
rud_trap();
L2:;
in_std_collections_btree_row_Row_reverse_377167ce062cdc45(RUD_AS v1);
in_std_collections_btree_node_parts_Parts_destroy_pairs_dc0ad195889(RUD_AS v1);
RUD_AGAIN
L1:;
RUD_G0 = v1 + 288u;
}

static void in_toml_toml_de_tables_Node_Destruct_drop(RUD_IT u64 a0) {
u32 v6 = 0, v7 = 0, v8 = 0, v9 = 0, v10 = 0;
u64 v1 = 0, v2 = 0, v3 = 0, v4 = 0, v5 = 0;
RUD_HERE
v1 = RUD_G0 - 64u;
RUD_G0 = v1;
if ((s64)v1 >= (s64)16u) {
TEST(a0);
v3 = AT64(a0, 40);
v7 = AT8(a0, 32);
v4 = AT64(a0, 24);
v2 = AT64(a0, 16);
v8 = AT32(a0, 12);
v10 = AT16(a0, 10);
v9 = AT8(a0, 9);
v6 = AT8(a0, 8);
v5 = (u64)AT8(a0, 0);
FILL_FEW(v1 + 24u, 0u, 40u);
switch ((u32)v5 - 1u) {
case 0u: goto L4;
case 1u: goto L3;
default: goto L5;
}
L5:;
TEST(v1);
SET8(v1, 48, v7);
SET64(v1, 40, v4);
SET64(v1, 32, v2);
SET32(v1, 28, v8);
SET8(v1, 25, v9);
SET8(v1, 24, v6);
SET32(v1, 56, (u32)v3);
a0 = a0 + 33u;
TEST(a0);
SET32(v1, 49, AT32(a0, 0));
SET32(v1, 52, AT32(a0, 3));
in_toml_toml_value_Value_Destruct_drop(RUD_AS v1 + 24u);
RUD_AGAIN
goto L2;
L4:;
if (v6 != 1u) goto L2;
in_std_collections_btree_node_Node_destroy_dc0ad195889b9f50(RUD_AS v2);
RUD_AGAIN
goto L2;
L3:;
TEST(v1);
SET64(v1, 16, v4);
SET64(v1, 8, v2);
SET32(v1, 4, v8);
SET16(v1, 2, v10);
SET8(v1, 1, v9);
SET8(v1, 0, v6);
in_std_alloc_vec_Vec_drop_f8ad6a88bf30276b(RUD_AS v1);
RUD_AGAIN
if (v7 != 1u) goto L2;
in_std_collections_btree_node_Node_destroy_dc0ad195889b9f50(RUD_AS v3);
RUD_AGAIN
L2:;
RUD_G0 = v1 + 64u;
return;
}
rud_trap();
}

static void in_std_collections_Destruct_tuple2_drop_f30e29efdc7402b0(RUD_IT u64 a0) {
u32 v4 = 0, v5 = 0;
u64 v1 = 0, v2 = 0, v3 = 0;
RUD_HERE
v1 = RUD_G0 - 112u;
RUD_G0 = v1;
TEST(a0);
v4 = AT8(a0, 25);
v5 = AT8(a0, 24);
v2 = AT64(a0, 16);
v3 = AT64(a0, 0);
COPY_FEW(v1 + 66u, a0 + 26u, 46u);
if ((s64)v1 >= (s64)16u) {
a0 = AT64(a0, 72);
TEST(v1);
SET64(v1, 8, 0u);
if (!(v2 == 0)) {
rud_dealloc(RUD_AS v3);
RUD_AGAIN
}
SET8(v1, 9, v4);
SET8(v1, 8, v5);
COPY_FEW(v1 + 16u, v1 + 72u, 40u);
SET64(v1, 56, a0);
in_toml_toml_de_tables_Node_Destruct_drop(RUD_AS v1 + 8u);
RUD_AGAIN
RUD_G0 = v1 + 112u;
return;
}
rud_trap();
}

static void in_std_collections_btree_node_parts_Parts_destroy_pairs_dc0ad195889(RUD_IT u64 a0) {
u64 v1 = 0;
RUD_HERE
v1 = RUD_G0 - 160u;
RUD_G0 = v1;
if ((s64)v1 >= (s64)16u) {
FILL_FEW(v1, 0u, 80u);
COPY_FEW(v1 + 80u, a0, 80u);
TEST(v1);
if (!(AT64(v1, 88) == 0)) {
L3:;
in_std_collections_btree_row_Row_pop_377167ce062cdc45(RUD_AS v1, v1 + 80u);
in_std_collections_Destruct_tuple2_drop_f30e29efdc7402b0(RUD_AS v1);
RUD_AGAIN
if (AT64(v1, 88) != 0u) goto L3;
}
rud_dealloc(RUD_AS AT64(v1, 152));
RUD_AGAIN
RUD_G0 = v1 + 160u;
return;
}
rud_trap();
}

static void in_std_collections_btree_map_iter_owned_IntoIter_drop_dc0ad195889b9(RUD_IT u64 a0) {
u32 i0 = 0, i1 = 0, i2 = 0, i3 = 0, i4 = 0;
u64 v1 = 0, v2 = 0;
RUD_HERE
v1 = RUD_G0 - 320u;
RUD_G0 = v1;
if ((s64)v1 >= (s64)16u) {
TEST(a0);
v2 = AT64(a0, 184);
i0 = AT8(a0, 280);
i1 = AT8(a0, 192);
i2 = AT8(a0, 176);
i3 = AT8(a0, 88);
i4 = AT8(a0, 0);
COPY_FEW(v1 + 240u, a0 + 96u, 80u);
COPY_FEW(v1 + 160u, a0 + 200u, 80u);
COPY_FEW(v1 + 80u, a0 + 288u, 80u);
if (i4 == 1u) {
COPY_FEW(v1, a0 + 8u, 80u);
in_std_collections_btree_node_parts_Parts_destroy_pairs_dc0ad195889(RUD_AS v1);
RUD_AGAIN
}
if (i3) {
in_std_collections_Destruct_tuple2_drop_f30e29efdc7402b0(RUD_AS v1 + 240u);
RUD_AGAIN
}
if (i2 == 1u) {
in_std_collections_btree_node_Node_destroy_dc0ad195889b9f50(RUD_AS v2);
RUD_AGAIN
}
if (i1) {
in_std_collections_Destruct_tuple2_drop_f30e29efdc7402b0(RUD_AS v1 + 160u);
RUD_AGAIN
}
if (i0 == 1u) {
a0 = v1 + 80u;
in_std_collections_btree_row_Row_reverse_377167ce062cdc45(RUD_AS a0);
in_std_collections_btree_node_parts_Parts_destroy_pairs_dc0ad195889(RUD_AS a0);
RUD_AGAIN
}
RUD_G0 = v1 + 320u;
return;
}
rud_trap();
}

static u64 in_std_collections_btree_tree_places_only_edge_d4294551460d727f(RUD_IT u64 a0) {
u32 v3 = 0;
u64 v1 = 0, v2 = 0, j0 = 0;
RUD_HERE
v1 = RUD_G0 - 80u;
RUD_G0 = v1;
if ((s64)v1 >= (s64)16u) {
TEST(v1);
SET64(v1, 40, 15u);
SET64(v1, 16, 15u);
SET64(v1, 72, a0);
SET64(v1, 48, a0 + 1208u);
TEST(a0);
v2 = (u64)AT16(a0, 0);
SET64(v1, 32, v2);
SET64(v1, 24, a0 + 368u);
SET64(v1, 8, v2);
SET64(v1, 0, a0 + 8u);
v3 = AT16(a0, 2);
SET64(v1, 64, v3 ? 16ull : 0ull);
SET64(v1, 56, v3 ? (v2 + 1u) : 0ull);
j0 = in_std_alloc_vec_Vec_remove_8c0c036898378f4f(RUD_AS v1 + 48u);
rud_dealloc(RUD_AS AT64(v1, 72));
RUD_AGAIN
RUD_G0 = v1 + 80u;
return j0;
}
rud_trap();
return 0;
}

static void in_std_collections_btree_node_Node_peel_first_d4294551460d727f(RUD_IT u64 a0, u64 a1) {
u32 v6 = 0;
u64 v2 = 0, v3 = 0, v4 = 0, v5 = 0, j1 = 0;
RUD_HERE
v2 = RUD_G0 - 304u;
RUD_G0 = v2;
if ((s64)v2 >= (s64)16u) {
FILL_FEW(v2 + 8u, 0u, 88u);
TEST(a1);
v4 = AT64(a1, 0);
v5 = v4 + 1208u;
TEST(v5);
v3 = AT64(v5, 0);
TEST(v3);
if (AT16(v3, 2) == 0) {
TEST(v4);
v3 = (u64)AT16(v4, 0);
TEST(v2);
SET64(v2, 168, v4);
SET64(v2, 144, v5);
SET64(v2, 136, 15u);
SET64(v2, 128, v3);
SET64(v2, 120, v4 + 368u);
SET64(v2, 112, 15u);
SET64(v2, 104, v3);
SET64(v2, 96, v4 + 8u);
v6 = AT16(v4, 2);
SET64(v2, 160, v6 ? 16ull : 0ull);
SET64(v2, 152, v6 ? (v3 + 1u) : 0ull);
SET32(v2, 256, 0u);
SET16(v2, 260, 0u);
SET64(v2, 232, 0u);
SET64(v2, 240, 0u);
SET64(v2, 248, 0u);
v3 = v2 + 176u;
FILL_FEW(v3, 0u, 56u);
in_std_alloc_vec_Vec_remove_992c4ce9cbd9eb37(RUD_AS v2 + 232u, v2 + 96u, 0u);
in_std_alloc_vec_Vec_remove_ead69053adb5db67(RUD_AS v3, v2 + 120u, 0u);
v4 = AT64(v2, 224);
v6 = AT16(v2, 176);
COPY_FEW(v2 + 262u, v2 + 184u, 40u);
v5 = in_std_alloc_vec_Vec_remove_8c0c036898378f4f(RUD_AS v2 + 144u);
v3 = AT64(v2, 168);
TEST(v3);
SET16(v3, 0, (u32)AT64(v2, 104));
SET64(a1, 0, v3);
SET64(v2, 8, v5);
SET16(v2, 40, v6);
SET64(v2, 16, AT64(v2, 232));
SET64(v2, 24, AT64(v2, 240));
SET64(v2, 32, AT64(v2, 248));
COPY_FEW(v2 + 42u, v2 + 256u, 46u);
SET64(v2, 88, v4);
COPY_FEW(a0, v2 + 8u, 88u);
goto L1;
}
if (AT16(v3, 0)) {
a1 = v2 + 8u;
in_std_collections_btree_node_Node_peel_first_d4294551460d727f(RUD_AS a1, v5);
RUD_AGAIN
COPY_FEW(a0, a1, 88u);
goto L1;
}
j1 = in_std_collections_btree_tree_places_only_edge_d4294551460d727f(RUD_AS v3);
RUD_AGAIN
SET64(v5, 0, j1);
v3 = v2 + 8u;
in_std_collections_btree_node_Node_peel_first_d4294551460d727f(RUD_AS v3, a1);
RUD_AGAIN
COPY_FEW(a0, v3, 88u);
goto L1;
}
rud_trap();
L1:;
RUD_G0 = v2 + 304u;
}

static void in_toml_de_tables_close(RUD_IT u64 a0, u64 a1) {
u32 v33 = 0, v34 = 0, v35 = 0, v36 = 0, v37 = 0, v38 = 0, v39 = 0, v40 = 0, v41 = 0, i0 = 0;
u64 v2 = 0, v3 = 0, v4 = 0, v5 = 0, v6 = 0, v7 = 0, v8 = 0, v9 = 0, v10 = 0, v11 = 0, v12 = 0, v13 = 0;
u64 v14 = 0, v15 = 0, v16 = 0, v17 = 0, v18 = 0, v19 = 0, v20 = 0, v21 = 0, v22 = 0, v23 = 0, v24 = 0, v25 = 0;
u64 v26 = 0, v27 = 0, v28 = 0, v29 = 0, v30 = 0, v31 = 0, v32 = 0, j0 = 0, j1 = 0;
RUD_HERE
(void)v12;
(void)v18;
(void)v19;
(void)v21;
v2 = RUD_G0 - 1904u;
RUD_G0 = v2;
if ((s64)v2 < (s64)16u) goto L1;
TEST(a1);
v3 = AT64(a1, 16);
v5 = AT64(a1, 8);
a1 = (u64)AT8(a1, 0);
FILL_FEW(v2 + 392u, 0u, 376u);
FILL_FEW(v2 + 16u, 0u, 376u);
TEST_FAR(v2, 880);
SET64(v2, 1144, 0u);
FILL_FEW(v2 + 768u, 0u, 176u);
SET64(v2, 952, a1 == 1u ? v5 : 0ull);
SET64(v2, 944, a1);
FILL_FEW(v2 + 960u, 0u, 176u);
SET64(v2, 1136, v3);
v23 = v2 + 1352u;
v17 = (v2 + 1152u) | 4u;
v18 = v2 + 1424u;
v19 = v2 + 1694u;
v12 = v2 + 1728u;
v20 = (v2 + 1840u) | 4u;
v21 = v2 + 1842u;
v24 = v2 + 1176u;
v25 = v2 + 1504u;
v26 = v2 + 1336u;
L3:;
a1 = v2 + 1328u;
FILL_FEW(a1, 0u, 88u);
FILL_FEW(v2 + 1152u, 0u, 88u);
in_std_collections_btree_owned_steps_pop_d4294551460d727f(RUD_AS a1, v2 + 768u);
if (AT8(v2, 1328) == 1u) {
v8 = AT64(v2, 1408);
v14 = AT64(v2, 1392);
v11 = AT64(v2, 1384);
v13 = AT64(v2, 1376);
v35 = AT32(v2, 1372);
v37 = AT16(v2, 1370);
v36 = AT8(v2, 1369);
v33 = AT8(v2, 1368);
v34 = AT8(v2, 1360);
v3 = AT64(v2, 1352);
v6 = AT64(v2, 1344);
v4 = AT64(v2, 1336);
j0 = AT64(v2, 1400);
goto L5;
}
v3 = v2 + 1152u;
v5 = v2 + 768u;
v10 = 0u;
v35 = 0u;
a1 = RUD_G0 - 624u;
RUD_G0 = a1;
if ((s64)a1 < (s64)16u) goto L8;
TEST(a1);
SET64(a1, 296, 0u);
SET64(a1, 288, 0u);
SET64(a1, 280, 0u);
FILL_FEW(a1 + 234u, 0u, 46u);
FILL_FEW(a1 + 72u, 0u, 88u);
SET64(a1, 64, 0u);
SET64(a1, 56, 0u);
SET64(a1, 48, 0u);
FILL_FEW(a1 + 2u, 0u, 46u);
v8 = v5 + 96u;
SET64(a1, 208, AT64(v2, 864));
SET64(a1, 216, AT64(v2, 872));
SET64(a1, 224, AT64(v2, 880));
v33 = AT8(v2, 888);
v36 = AT8(v2, 889);
v6 = v5 + 88u;
v34 = AT8(v2, 856);
COPY_FEW(a1 + 162u, v5 + 122u, 46u);
v4 = AT64(v2, 936);
FILL_FEW(v6, 0u, 88u);
if (v34 == 1u) {
SET64(v2, 1152, 1u);
SET64(v2, 1160, AT64(a1, 208));
SET64(v2, 1168, AT64(a1, 216));
SET64(v2, 1176, AT64(a1, 224));
SET8(v2, 1185, v36);
SET8(v2, 1184, v33);
COPY_FEW(v3 + 34u, a1 + 162u, 46u);
SET64(v2, 1232, v4);
goto L9;
}
FILL_FEW(a1 + 384u, 0u, 80u);
FILL_FEW(a1 + 304u, 0u, 80u);
v4 = v5 + 176u;
i0 = AT8(v2, 944);
SET64(v2, 944, 0u);
v7 = v5 + 184u;
v4 = AT64(v2, 952);
SET64(v2, 952, 0u);
if (i0 == 1u) {
FILL_FEW(a1 + 464u, 0u, 88u);
TEST(v4);
if (AT16(v4, 2) == 0) goto L12;
L13:;
TEST(v4);
if (AT16(v4, 0)) goto L12;
j0 = in_std_collections_btree_tree_places_only_edge_d4294551460d727f(RUD_AS v4);
RUD_AGAIN
v4 = j0;
TEST(v4);
if (AT16(v4, 2)) goto L13;
L12:;
SET64(a1, 552, v4);
if (AT16(v4, 2) == 0) {
FILL_FEW(a1 + 304u, 0u, 80u);
j0 = 0u;
goto L14;
}
in_std_collections_btree_node_Node_peel_first_d4294551460d727f(RUD_AS a1 + 464u, a1 + 552u);
RUD_AGAIN
v10 = AT64(a1, 552);
v4 = AT64(a1, 464);
COPY_FEW(a1 + 304u, a1 + 472u, 80u);
j0 = 1u;
L14:;
v9 = j0;
TEST(v4);
v33 = AT16(v4, 2);
v7 = (u64)AT16(v4, 0);
SET64(a1, 456, v4);
SET64(a1, 432, v4 + 1208u);
SET64(a1, 424, 15u);
SET64(a1, 416, v7);
SET64(a1, 408, v4 + 368u);
SET64(a1, 400, 15u);
SET64(a1, 392, v7);
SET64(a1, 384, v4 + 8u);
SET64(a1, 448, v33 ? 16ull : 0ull);
SET64(a1, 440, v33 ? (v7 + 1u) : 0ull);
v4 = a1 + 384u;
in_std_collections_btree_row_Row_reverse_377167ce062cdc45(RUD_AS v4);
i0 = AT8(v2, 768);
SET64(v2, 768, 1u);
v7 = AT64(v2, 848);
COPY_FEW(v5 + 8u, v4, 80u);
if (i0 == 1u) {
rud_dealloc(RUD_AS v7);
RUD_AGAIN
}
i0 = AT8(v2, 856);
SET64(v2, 856, v9);
COPY_FEW(v8, a1 + 304u, 80u);
if (i0 == 1u) goto L8;
SET64(v2, 952, v10);
v4 = v5 + 176u;
i0 = AT8(v2, 944);
SET64(v2, 944, v9);
if (i0 == 1u) goto L8;
}
in_std_collections_btree_owned_steps_pop_d4294551460d727f(RUD_AS a1 + 72u, v5);
if (AT8(a1, 72) == 1u) {
SET64(v2, 1152, 1u);
SET64(v2, 1160, AT64(a1, 80));
SET64(v2, 1168, AT64(a1, 88));
SET64(v2, 1176, AT64(a1, 96));
SET16(v2, 1184, AT16(a1, 104));
v5 = AT64(a1, 152);
COPY_FEW(v3 + 34u, a1 + 106u, 46u);
SET64(v2, 1232, v5);
goto L9;
}
SET64(a1, 48, AT64(v2, 968));
SET64(a1, 56, AT64(v2, 976));
SET64(a1, 64, AT64(v2, 984));
v33 = AT8(v2, 992);
v36 = AT8(v2, 993);
v4 = v5 + 192u;
i0 = AT8(v2, 960);
COPY_FEW(a1 + 2u, v5 + 226u, 46u);
v6 = AT64(v2, 1040);
FILL_FEW(v4, 0u, 88u);
if (i0 == 1u) {
SET64(v2, 1152, 1u);
SET64(v2, 1160, AT64(a1, 48));
SET64(v2, 1168, AT64(a1, 56));
SET64(v2, 1176, AT64(a1, 64));
SET8(v2, 1185, v36);
SET8(v2, 1184, v33);
COPY_FEW(v3 + 34u, a1 + 2u, 46u);
SET64(v2, 1232, v6);
goto L9;
}
v4 = 0u;
SET64(a1, 552, 0u);
SET64(a1, 560, 0u);
SET64(a1, 568, 0u);
FILL_FEW(a1 + 384u, 0u, 46u);
if (AT8(v2, 1048) != 1u) {
v33 = 0u;
j0 = 0u;
goto L19;
}
v33 = 0u;
if (AT64(v2, 1064) == 0) { j0 = 0u; goto L19; }
SET32(a1, 576, 0u);
SET16(a1, 580, 0u);
SET64(a1, 304, 0u);
SET64(a1, 312, 0u);
SET64(a1, 320, 0u);
v4 = a1 + 464u;
FILL_FEW(v4, 0u, 56u);
in_std_alloc_vec_Vec_remove_992c4ce9cbd9eb37(RUD_AS a1 + 304u, v5 + 288u, 0u);
in_std_alloc_vec_Vec_remove_ead69053adb5db67(RUD_AS v4, v5 + 312u, 0u);
v4 = AT64(a1, 512);
v33 = AT8(a1, 465);
v35 = AT8(a1, 464);
COPY_FEW(a1 + 582u, a1 + 472u, 40u);
SET64(a1, 552, AT64(a1, 304));
SET64(a1, 560, AT64(a1, 312));
SET64(a1, 568, AT64(a1, 320));
COPY_FEW(a1 + 384u, a1 + 576u, 46u);
j0 = 1u;
L19:;
v5 = j0;
SET64(a1, 296, AT64(a1, 568));
SET64(a1, 288, AT64(a1, 560));
SET64(a1, 280, AT64(a1, 552));
v6 = a1 + 234u;
COPY_FEW(v6, a1 + 384u, 46u);
SET64(v2, 1152, v5);
SET64(v2, 1160, AT64(a1, 280));
SET64(v2, 1168, AT64(a1, 288));
SET64(v2, 1176, AT64(a1, 296));
SET8(v2, 1185, v33);
SET8(v2, 1184, v35);
COPY_FEW(v3 + 34u, v6, 46u);
SET64(v2, 1232, v4);
L9:;
RUD_G0 = a1 + 624u;
goto L7;
L8:;
rud_trap();
L7:;
if (AT8(v2, 1152) != 1u) goto L4;
v8 = AT64(v2, 1232);
v14 = AT64(v2, 1216);
v11 = AT64(v2, 1208);
v13 = AT64(v2, 1200);
v35 = AT32(v2, 1196);
v37 = AT16(v2, 1194);
v36 = AT8(v2, 1193);
v33 = AT8(v2, 1192);
v34 = AT8(v2, 1184);
v3 = AT64(v2, 1176);
v6 = AT64(v2, 1168);
v4 = AT64(v2, 1160);
j0 = AT64(v2, 1224);
L5:;
a1 = j0;
SET64(v2, 1136, AT64(v2, 1136) - 1u);
SET64(v2, 1256, 0u);
SET64(v2, 1248, 0u);
SET64(v2, 1240, 0u);
SET64(v2, 1328, 0u);
SET64(v2, 1336, 0u);
SET64(v2, 1344, 0u);
SET64(v2, 1352, 0u);
SET64(v2, 1152, 0u);
SET64(v2, 1160, 0u);
SET64(v2, 1168, 0u);
SET64(v2, 1176, 0u);
v38 = (u32)a1;
switch ((u32)((u64)v34 & 255u) - 1u) {
case 0u: goto L28;
case 1u: goto L27;
default: goto L26;
}
L28:;
SET64(v2, 1776, v11);
SET64(v2, 1768, v13);
SET64(v2, 1760, (u64)v33 & 255u);
in_toml_de_tables_close(RUD_AS v2 + 1328u, v2 + 1760u);
RUD_AGAIN
v33 = AT8(v2, 1328);
if (v33) goto L25;
v35 = 0u;
v13 = (u64)(v33 ? 0u : AT8(v2, 1336)) & 255u;
v33 = 6u;
v11 = AT64(v2, 1344);
v14 = AT64(v2, 1352);
v36 = 0u;
v38 = 0u;
goto L26;
L27:;
SET64(v2, 1496, v11);
SET64(v2, 1488, v13);
SET32(v2, 1484, v35);
SET16(v2, 1482, v37);
SET8(v2, 1481, v36);
SET8(v2, 1480, v33);
SET64(v2, 1856, v8);
SET64(v2, 1848, a1);
SET64(v2, 1840, v14 & 255u);
in_toml_de_tables_close_array(RUD_AS v2 + 1152u, v2 + 1480u, v2 + 1840u);
RUD_AGAIN
if (AT8(v2, 1152)) goto L25;
v38 = 0u;
v33 = 5u;
v14 = AT64(v2, 1176);
v11 = AT64(v2, 1168);
v13 = AT64(v2, 1160);
v35 = 0u;
v36 = 0u;
L26:;
SET64(v2, 1304, v3);
SET64(v2, 1296, v6);
SET64(v2, 1288, v4);
SET64(v2, 1280, 0u);
SET64(v2, 1272, 0u);
SET64(v2, 1264, 0u);
if (v39) {
v4 = AT64(v2, 1144);
TEST(v4);
i0 = AT16(v4, 2);
goto L31;
}
in_std_heap_GlobalAllocator_allocate(RUD_AS v2, 968u, 8u);
RUD_AGAIN
if (AT8(v2, 0)) goto L30;
v4 = AT64(v2, 8);
TEST(v4);
SET32(v4, 0, 0u);
SET64(v2, 1144, v4);
v39 = 1u;
i0 = 0u;
L31:;
v34 = i0;
v7 = 0u;
a1 = v4;
v6 = a1;
v16 = (u64)v34 & 65535u;
v15 = 15ull - v16;
v10 = v15;
v8 = 0u;
L33:;
SET64(v2, 1328, v2 + 1288u);
v3 = 0u;
v5 = a1;
TEST(v5);
v9 = (u64)AT16(v5, 0);
if (v9 == 0) goto L34;
a1 = v5 + 8u;
L35:;
i0 = in_std_collections_btree_map_queries_QueryTarget_order_222056d77792(RUD_AS v2 + 1328u, a1);
v37 = i0 & 255u;
if (v37 != 2u) {
if (v37 - 1u) goto L34;
goto L29;
}
a1 = a1 + 24u;
v3 = v3 + 1u;
if (v9 != v3) goto L35;
v3 = v9;
L34:;
v10 = v10 + 1u;
v8 = v3 + (v8 << 4);
if (AT16(v5, 2)) {
a1 = GET64(v5 + (v3 << 3), 968);
v7 = v3;
v6 = v5;
goto L33;
}
if (v22 > 9223372036854775806ull) goto L30;
a1 = v7 << 3;
v3 = v10 - v15;
if (GET16(GET64(v3 == 1u ? (v2 + 1144u) : ((v6 + a1) + 968u), 0), 0) <= 14u) {
SET64(v2, 1280, AT64(v2, 1304));
SET64(v2, 1272, AT64(v2, 1296));
SET64(v2, 1264, AT64(v2, 1288));
goto L40;
}
FILL_FEW(v2 + 1328u, 0u, 88u);
if (AT16(v4, 0) < 15u) {
v3 = v4;
goto L42;
}
if (v34 > 10u) goto L30;
in_std_collections_btree_node_parts_Parts_new_3401b5eb79e7930a(RUD_AS v2 + 1328u, (u64)(v34 + 1u) & 65535u);
RUD_AGAIN
if (AT8(v2, 1328)) goto L30;
v3 = AT64(v2, 1408);
a1 = AT64(v2, 1384);
v5 = AT64(v2, 1344);
v9 = AT64(v2, 1392);
if (v9 == 0) goto L44;
v9 = v9 << 3;
if (v9 == 0) goto L44;
COPY(a1 + 8u, a1, v9);
L44:;
TEST(a1);
SET64(a1, 0, v4);
TEST(v3);
SET16(v3, 0, (u32)v5);
SET64(v2, 1144, v3);
v15 = 14ull - v16;
L42:;
SET64(v2, 1336, 0u);
SET64(v2, 1328, 0u);
if (v10 > v15) {
a1 = v10;
L46:;
a1 = a1 - 1u;
PUT8(a1 + (v2 + 1328u), 0, (u32)v8 & 15u);
v8 = v8 >> 4;
if (a1 > v15) goto L46;
}
SET64(v2, 1320, AT64(v2, 1336));
SET64(v2, 1312, AT64(v2, 1328));
a1 = 16ull - v15;
if (a1 >= 2u) {
v9 = (v2 + 1312u) + v15;
v8 = v2 + 1144u;
L48:;
v5 = a1;
TEST(v8);
v6 = AT64(v8, 0);
TEST(v9);
v34 = AT8(v9, 0);
v7 = (u64)v34 & 255u;
v4 = v7 << 3;
if (GET16(GET64(v6 + v4, 968), 0) < 15u) goto L49;
a1 = v2 + 1328u;
FILL_FEW(a1, 0u, 88u);
TEST(v6);
in_std_collections_btree_node_parts_Parts_new_3401b5eb79e7930a(RUD_AS a1, (u64)AT16(v6, 2) - 1u);
RUD_AGAIN
if (AT8(v2, 1328)) goto L39;
a1 = AT64(v8, 0);
v6 = v2 + 1760u;
COPY_FEW(v6, v26, 80u);
SET64(v2, 1456, 0u);
SET64(v2, 1464, 0u);
SET64(v2, 1472, 0u);
FILL_FEW(v2 + 1422u, 0u, 34u);
SET64(v2, 1552, a1);
SET64(v2, 1520, 15u);
SET64(v2, 1504, a1 + 368u);
SET64(v2, 1496, 15u);
SET64(v2, 1480, a1 + 8u);
TEST(a1);
v3 = (u64)AT16(a1, 0);
SET64(v2, 1512, v3);
SET64(v2, 1488, v3);
v37 = AT16(a1, 2);
SET64(v2, 1544, v37 ? 16ull : 0ull);
SET64(v2, 1536, v37 ? (v3 + 1u) : 0ull);
a1 = a1 + 968u;
SET64(v2, 1528, a1);
SET64(v2, 1600, 0u);
SET64(v2, 1608, 0u);
SET64(v2, 1616, 0u);
FILL_FEW(v2 + 1566u, 0u, 34u);
v27 = a1 + v4;
TEST(v27);
a1 = AT64(v27, 0);
SET64(v2, 1664, 0u);
SET64(v2, 1672, 0u);
SET64(v2, 1680, 0u);
FILL_FEW(v2 + 1630u, 0u, 34u);
FILL_FEW(v2 + 1692u, 0u, 34u);
SET64(v2, 1224, a1);
SET64(v2, 1200, a1 + 968u);
SET64(v2, 1192, 15u);
SET64(v2, 1176, a1 + 368u);
SET64(v2, 1168, 15u);
SET64(v2, 1152, a1 + 8u);
TEST(a1);
v3 = (u64)AT16(a1, 0);
SET64(v2, 1184, v3);
SET64(v2, 1160, v3);
v37 = AT16(a1, 2);
SET64(v2, 1216, v37 ? 16ull : 0ull);
SET64(v2, 1208, v37 ? (v3 + 1u) : 0ull);
in_std_alloc_vec_lodged_Vec_T_Lodged_append_tail_483ec8513fd57e54(RUD_AS v6, v2 + 1152u);
v6 = AT64(v2, 1184) - 8u;
a1 = v6 * 40u;
v16 = AT64(v2, 1784) + (AT64(v2, 1792) * 40u);
v28 = AT64(v2, 1176);
v3 = v28 + 320u;
if (a1 > (v16 - v3)) {
if (v6 == 0) goto L50;
v4 = 0u;
L52:;
a1 = v4 + v28;
TEST(a1);
v29 = AT64(a1, 324);
SET64(v2, 1842, v29);
v30 = AT64(a1, 332);
SET64(v2, 1850, v30);
v31 = AT64(a1, 340);
SET64(v2, 1858, v31);
v32 = AT64(a1, 348);
SET64(v2, 1866, v32);
v3 = v4 + v16;
TEST(v3);
SET16(v3, 0, AT16(a1, 320));
SET64(v3, 4, v29);
SET64(v3, 12, v30);
SET64(v3, 20, v31);
SET64(v3, 28, v32);
v4 = v4 + 40u;
v6 = v6 - 1u;
if (v6 != 0u) goto L52;
goto L50;
}
if (a1 == 0) goto L50;
COPY(v16, v3, a1);
L50:;
SET64(v2, 1184, 8u);
SET64(v2, 1880, 0u);
SET64(v2, 1888, 0u);
SET64(v2, 1896, 0u);
a1 = v2 + 1840u;
FILL_FEW(a1, 0u, 40u);
in_std_alloc_vec_Vec_remove_992c4ce9cbd9eb37(RUD_AS v2 + 1880u, v2 + 1152u, 7u);
in_std_alloc_vec_Vec_remove_e185903fd0eadc08(RUD_AS a1, v24, 7u);
TEST(v20);
SET64(v2, 1728, AT64(v20, 0));
SET64(v2, 1736, AT64(v20, 8));
SET64(v2, 1744, AT64(v20, 16));
SET64(v2, 1752, AT64(v20, 24));
v40 = AT8(v2, 1841);
v41 = AT8(v2, 1840);
if (v37 == 0) goto L53;
v4 = AT64(v2, 1208) - 8u;
v6 = v4 << 3;
a1 = AT64(v2, 1808) + (AT64(v2, 1816) << 3);
v3 = AT64(v2, 1200) + 64u;
if (v6 > (a1 - v3)) {
if (v4 == 0) goto L53;
L55:;
TEST(v3);
TEST(a1);
SET64(a1, 0, AT64(v3, 0));
a1 = a1 + 8u;
v3 = v3 + 8u;
v4 = v4 - 1u;
if (v4 != 0u) goto L55;
goto L53;
}
if (v6 == 0) goto L53;
COPY(a1, v3, v6);
L53:;
a1 = AT64(v2, 1224);
TEST(a1);
SET16(a1, 0, (u32)AT64(v2, 1160));
v6 = AT64(v2, 1832);
TEST(v6);
SET16(v6, 0, (u32)AT64(v2, 1768));
SET64(v2, 1694, AT64(v2, 1728));
SET64(v2, 1702, AT64(v2, 1736));
SET64(v2, 1710, AT64(v2, 1744));
SET64(v2, 1718, AT64(v2, 1752));
SET64(v2, 1664, AT64(v2, 1880));
SET64(v2, 1672, AT64(v2, 1888));
SET64(v2, 1680, AT64(v2, 1896));
v3 = v2 + 1630u;
COPY_FEW(v3, v2 + 1692u, 34u);
SET64(v2, 1600, AT64(v2, 1664));
SET64(v2, 1608, AT64(v2, 1672));
SET64(v2, 1616, AT64(v2, 1680));
v4 = v2 + 1566u;
COPY_FEW(v4, v3, 34u);
SET64(v27, 0, a1);
SET64(v2, 1456, AT64(v2, 1600));
SET64(v2, 1464, AT64(v2, 1608));
SET64(v2, 1472, AT64(v2, 1616));
COPY_FEW(v2 + 1422u, v4, 34u);
a1 = v2 + 1152u;
FILL_FEW(a1, 0u, 40u);
in_std_alloc_vec_lodged_Vec_T_Lodged_insert_reserved_483ec8513fd57e(RUD_AS v2 + 1480u, v7, v2 + 1456u);
TEST(v17);
SET64(v17, 0, AT64(v2, 1424));
SET64(v17, 8, AT64(v2, 1432));
SET64(v17, 16, AT64(v2, 1440));
SET64(v17, 24, AT64(v2, 1448));
SET8(v2, 1153, v40);
SET8(v2, 1152, v41);
in_std_alloc_vec_lodged_Vec_T_Lodged_insert_reserved_18_toml_value(RUD_AS v25, v7, a1);
a1 = v7 + 1u;
v3 = a1 << 3;
v4 = AT64(v2, 1528);
v7 = AT64(v2, 1536);
if (v7 == a1) goto L56;
a1 = (v7 - a1) << 3;
if (a1 == 0) goto L56;
v7 = v3 + v4;
COPY(v7 + 8u, v7, a1);
L56:;
PUT64(v3 + v4, 0, v6);
v6 = AT64(v2, 1552);
TEST(v6);
SET16(v6, 0, (u32)AT64(v2, 1488));
SET64(v8, 0, v6);
v37 = AT8(v9, 1);
if (v37 <= 7u) {
v34 = AT8(v9, 0);
goto L49;
}
SET8(v9, 1, v37 - 8u);
v34 = v34 + 1u;
SET8(v9, 0, v34);
L49:;
a1 = v5 - 1u;
v9 = v9 + 1u;
v7 = (u64)v34 & 255u;
v8 = (v6 + (v7 << 3)) + 968u;
if (v5 > 2u) goto L48;
v3 = AT64(v2, 1144);
}
TEST(v3);
if (AT16(v3, 0) == 0) goto L38;
SET64(v2, 1264, AT64(v2, 1288));
SET64(v2, 1272, AT64(v2, 1296));
SET64(v2, 1280, AT64(v2, 1304));
a1 = v7 << 3;
v3 = v10 - v15;
v8 = (u64)AT8(v2, 1327);
L40:;
v5 = v3 == 1u ? (v2 + 1144u) : ((a1 + v6) + 968u);
TEST(v5);
a1 = AT64(v5, 0);
SET64(v2, 1400, a1);
SET64(v2, 1376, a1 + 968u);
SET64(v2, 1368, 15u);
SET64(v2, 1352, a1 + 368u);
SET64(v2, 1344, 15u);
SET64(v2, 1328, a1 + 8u);
TEST(a1);
v3 = (u64)AT16(a1, 0);
SET64(v2, 1360, v3);
SET64(v2, 1336, v3);
v34 = AT16(a1, 2);
SET64(v2, 1392, v34 ? 16ull : 0ull);
SET64(v2, 1384, v34 ? (v3 + 1u) : 0ull);
a1 = v2 + 1152u;
FILL_FEW(a1, 0u, 40u);
v3 = v8 & 15u;
in_std_alloc_vec_lodged_Vec_T_Lodged_insert_reserved_483ec8513fd57e(RUD_AS v2 + 1328u, v3, v2 + 1264u);
SET32(v2, 1184, v38);
SET64(v2, 1176, v14);
SET64(v2, 1168, v11);
SET64(v2, 1160, v13);
SET32(v2, 1156, v35);
SET8(v2, 1153, v36);
SET8(v2, 1152, v33);
in_std_alloc_vec_lodged_Vec_T_Lodged_insert_reserved_18_toml_value(RUD_AS v23, v3, a1);
a1 = AT64(v2, 1400);
TEST(a1);
SET16(a1, 0, (u32)AT64(v2, 1336));
SET64(v5, 0, a1);
v22 = v22 + 1u;
goto L3;
L39:;
v3 = AT64(v2, 1144);
TEST(v3);
if (AT16(v3, 0)) goto L30;
L38:;
if (AT16(v3, 2) == 0) goto L30;
SET64(v2, 1392, 16u);
SET64(v2, 1384, 1u);
SET64(v2, 1368, 15u);
SET64(v2, 1360, 0u);
SET64(v2, 1344, 15u);
SET64(v2, 1336, 0u);
SET64(v2, 1400, v3);
SET64(v2, 1376, v3 + 968u);
SET64(v2, 1352, v3 + 368u);
SET64(v2, 1328, v3 + 8u);
a1 = in_std_alloc_vec_Vec_remove_8c0c036898378f4f(RUD_AS v2 + 1376u);
rud_dealloc(RUD_AS AT64(v2, 1400));
RUD_AGAIN
SET64(v2, 1144, a1);
L30:;
a1 = AT64(v2, 1288);
j0 = AT64(v2, 1304);
FILL_FEW(v2 + 1328u, 0u, 40u);
if (!(j0 == 0)) {
rud_dealloc(RUD_AS a1);
RUD_AGAIN
}
SET32(v2, 1360, v38);
SET64(v2, 1352, v14);
SET64(v2, 1344, v11);
SET64(v2, 1336, v13);
SET32(v2, 1332, v35);
SET8(v2, 1329, v36);
SET8(v2, 1328, v33);
in_toml_toml_value_Value_Destruct_drop(RUD_AS v2 + 1328u);
RUD_AGAIN
goto L24;
L29:;
a1 = v3 & 15u;
v3 = GET64((v10 + v16) == 15u ? (v2 + 1144u) : ((v6 + (v7 << 3)) + 968u), 0);
TEST(v3);
if (a1 >= (u64)AT16(v3, 0)) goto L1;
a1 = v3 + (a1 * 40u);
TEST(a1);
SET32(a1, 400, v38);
SET32(a1, 372, v35);
SET8(a1, 369, v36);
v5 = a1 + 392u;
v3 = AT64(a1, 392);
SET64(a1, 392, v14);
v4 = a1 + 384u;
v6 = (u64)AT8(a1, 384);
v7 = (u64)AT32(a1, 386);
v10 = (u64)AT16(a1, 390);
j0 = (u64)AT8(a1, 385);
SET64(a1, 384, v11);
v4 = a1 + 376u;
v35 = AT8(a1, 376);
v9 = (u64)AT32(a1, 377);
v11 = (u64)AT16(a1, 381);
j1 = (u64)AT8(a1, 383);
SET64(a1, 376, v13);
a1 = a1 + 368u;
TEST(a1);
v36 = AT8(a1, 0);
SET8(a1, 0, v33);
if (!(AT64(v2, 1304) == 0)) {
rud_dealloc(RUD_AS AT64(v2, 1288));
RUD_AGAIN
}
a1 = ((j1 << 48) | (v11 << 32)) | v9;
v5 = ((j0 << 8) | v6) | ((v7 | (v10 << 32)) << 16);
switch (v36 - 1u) {
case 0u: case 1u: case 2u: case 3u: goto L3;
case 4u: goto L21;
case 5u: goto L22;
default: goto L23;
}
L25:;
if (v3 == 0) goto L24;
rud_dealloc(RUD_AS v4);
RUD_AGAIN
L24:;
a1 = v2 + 392u;
COPY_FEW(a1, v2 + 768u, 376u);
in_std_collections_btree_map_iter_owned_IntoIter_drop_dc0ad195889b9(RUD_AS a1);
RUD_AGAIN
if (v39) {
in_std_collections_btree_node_Node_destroy_031b4c9998add48b(RUD_AS AT64(v2, 1144));
RUD_AGAIN
}
TEST(a0);
SET8(a0, 0, 1u);
SET64(a0, 8, 0u);
SET64(a0, 16, 0u);
SET64(a0, 24, 0u);
goto L2;
L23:;
if (v3 == 0) goto L3;
rud_dealloc(RUD_AS ((u64)v35 & 255u) | (a1 << 8));
RUD_AGAIN
goto L3;
L22:;
if (v35 != 1u) goto L3;
in_std_collections_btree_node_Node_destroy_031b4c9998add48b(RUD_AS v5);
RUD_AGAIN
goto L3;
L21:;
SET64(v2, 1256, v3);
SET64(v2, 1248, v5);
SET8(v2, 1240, v35);
SET32(v2, 1241, (u32)a1);
SET8(v2, 1247, (u32)(a1 >> 48));
SET16(v2, 1245, (u32)(a1 >> 32));
in_std_alloc_vec_Vec_drop_f8ad6a88bf30276b(RUD_AS v2 + 1240u);
RUD_AGAIN
goto L3;
L4:;
a1 = v2 + 16u;
COPY_FEW(a1, v2 + 768u, 376u);
in_std_collections_btree_map_iter_owned_IntoIter_drop_dc0ad195889b9(RUD_AS a1);
RUD_AGAIN
TEST(a0);
SET64(a0, 24, v22);
SET64(a0, 8, (u64)v39 & 255u);
SET8(a0, 0, 0u);
SET64(a0, 16, AT64(v2, 1144));
L2:;
RUD_G0 = v2 + 1904u;
return;
L1:;
rud_trap();
}

static u64 in_core_iter_base_Iterator_count_af506e600b762b0d(RUD_IT u64 a0) {
u32 v1 = 0, v2 = 0, v3 = 0, i0 = 0;
u64 v4 = 0, v5 = 0, v6 = 0;
RUD_HERE
if ((s64)RUD_G0 >= (s64)16u) {
TEST(a0);
if (AT8(a0, 16) & 1u) goto L2;
v5 = AT64(a0, 8);
if (v5 == 0) goto L2;
v6 = AT64(a0, 0);
a0 = AT64(a0, 24);
TEST(a0);
v2 = AT8(a0, 1);
v3 = AT8(a0, 0);
L3:;
v1 = GET8(v4 + v6, 0);
switch (v3 - 1u) {
case 0u: goto L5;
case 1u: goto L10;
case 2u: goto L9;
case 3u: goto L8;
case 4u: goto L7;
case 5u: goto L6;
default: goto L11;
}
L11:;
if ((u32)(v1 == 9u) | (u32)(v1 == 32u)) goto L4;
goto L2;
L10:;
i0 = (((u32)(v1 == 58u) | (u32)(v1 == 46u)) | ((u32)(v1 == 43u) | (u32)(v1 == 95u))) | (((u32)(v1 == 45u) | (u32)(((v1 - 48u) & 255u) < 10u)) | (u32)((((v1 & 223u) - 65u) & 255u) < 26u));
if (i0) goto L4;
goto L2;
L9:;
if (((v1 - 48u) & 255u) < 10u) goto L4;
goto L2;
L8:;
if (v1 == v2) goto L4;
goto L2;
L7:;
if (v1 != v2) goto L4;
goto L2;
L6:;
if ((u32)(((u32)(v1 != 92u) | (u32)(v2 != 34u)) == 0) | (u32)(v1 == v2)) goto L2;
if (((u32)(v1 != 127u) & (u32)(v1 > 31u)) | (u32)(v1 == 9u)) goto L4;
if (AT8(a0, 2) & (u32)(v1 == 10u)) goto L4;
goto L2;
L5:;
if (((u32)(v1 == 95u) | (u32)(v1 == 45u)) | (u32)(((v1 - 48u) & 255u) < 10u)) goto L4;
if ((((v1 & 223u) - 65u) & 255u) > 25u) goto L2;
L4:;
v4 = v4 + 1u;
if (v5 != v4) goto L3;
v4 = v5;
L2:;
return v4;
}
rud_trap();
return 0;
}

static void in_std_alloc_vec_Vec_drop_95beaedac91b374b(RUD_IT u64 a0) {
u64 v1 = 0, v2 = 0, v3 = 0, j0 = 0;
RUD_HERE
v3 = RUD_G0;
if ((s64)v3 >= (s64)16u) {
TEST(a0);
v1 = AT64(a0, 0);
v2 = AT64(a0, 8);
j0 = AT64(a0, 16);
if (!(v2 == 0)) {
a0 = v1;
L3:;
TEST(a0);
if (!(AT64(a0, 16) == 0)) {
rud_dealloc(RUD_AS AT64(a0, 0));
RUD_AGAIN
}
a0 = a0 + 24u;
v2 = v2 - 1u;
if (v2 != 0u) goto L3;
}
if (!(j0 == 0)) {
rud_dealloc(RUD_AS v1);
RUD_AGAIN
}
RUD_G0 = v3;
return;
}
rud_trap();
}

static void in_std_heap_GlobalAllocator_grow_i8(RUD_IT u64 a0, u64 a1, u64 a2, u64 a3) {
u32 v5 = 0;
u64 v4 = 0;
RUD_HERE
v4 = RUD_G0 - 16u;
RUD_G0 = v4;
if ((s64)v4 >= (s64)16u) {
TEST(v4);
SET64(v4, 8, 0u);
SET64(v4, 0, 0u);
rud_realloc(RUD_AS v4, a1, a2, a3, 1u);
RUD_AGAIN
v5 = AT8(v4, 0);
TEST(a0);
SET64(a0, 8, v5 ? AT64(v4, 8) : 0ull);
SET8(a0, 0, v5 ^ 1u);
RUD_G0 = v4 + 16u;
return;
}
rud_trap();
}

static u32 in_std_alloc_vec_Vec_move_to_795f5fd3dc7a282e(RUD_IT u64 a0, u64 a1) {
u32 v4 = 0, v5 = 0;
u64 v2 = 0, v3 = 0, j0 = 0;
RUD_HERE
v2 = RUD_G0 - 32u;
RUD_G0 = v2;
if ((s64)v2 >= (s64)16u) {
if ((s64)a1 < (s64)0u) goto L2;
TEST(a0);
if (!(AT64(a0, 16) == 0)) {
in_std_heap_GlobalAllocator_grow_i8(RUD_AS v2 + 16u, AT64(a0, 0), AT64(a0, 8), a1);
RUD_AGAIN
TEST(v2);
v5 = AT8(v2, 16);
j0 = AT64(v2, 24);
goto L3;
}
in_std_heap_GlobalAllocator_allocate(RUD_AS v2, a1, 1u);
RUD_AGAIN
TEST(v2);
v5 = AT8(v2, 0);
j0 = v5 ? 0ull : AT64(v2, 8);
L3:;
v3 = j0;
if (v5) goto L2;
SET64(a0, 16, a1);
SET64(a0, 0, v3);
v4 = 1u;
L2:;
RUD_G0 = v2 + 32u;
return v4;
}
rud_trap();
return 0;
}

static u32 in_std_alloc_vec_Vec_grow_amortized_795f5fd3dc7a282e(RUD_IT u64 a0, u64 a1) {
u32 v2 = 0;
u64 v3 = 0, v4 = 0, j0 = 0;
RUD_HERE
v4 = RUD_G0;
if ((s64)v4 >= (s64)16u) {
TEST(a0);
v3 = AT64(a0, 8);
if ((v3 ^ 0xffffffffffffffffull) >= a1) {
a1 = a1 + v3;
a1 = a1 > 8u ? a1 : 8ull;
j0 = a0;
a0 = AT64(a0, 16);
v3 = a0 << 1;
v2 = in_std_alloc_vec_Vec_move_to_795f5fd3dc7a282e(RUD_AS j0, a0 < 4611686018427387904ull ? (a1 > v3 ? a1 : v3) : a1);
RUD_AGAIN
}
RUD_G0 = v4;
return v2;
}
rud_trap();
return 0;
}

static u32 in_std_alloc_vec_Vec_extend_from_slice_d4fc6a806bb7b0db(RUD_IT u64 a0, u64 a1, u64 a2) {
u32 i0 = 0, i1 = 0;
u64 v3 = 0, v4 = 0, v5 = 0, v6 = 0, v7 = 0;
RUD_HERE
v6 = RUD_G0;
if ((s64)v6 >= (s64)16u) {
TEST(a0);
v5 = AT64(a0, 16);
v4 = a0 + 8u;
v3 = AT64(a0, 8);
if ((v5 - v3) < a2) {
i1 = in_std_alloc_vec_Vec_grow_amortized_795f5fd3dc7a282e(RUD_AS a0, a2);
RUD_AGAIN
if (i1 == 0) { i0 = 1u; goto L2; }
v5 = AT64(a0, 16);
v3 = AT64(a0, 8);
}
SET64(a0, 8, 0u);
SET64(a0, 16, 0u);
v4 = a2 + v3;
v7 = AT64(a0, 0);
v3 = v7 + v3;
if (a2 <= (v3 - a1)) {
if (a2 == 0) goto L4;
COPY(v3, a1, a2);
goto L4;
}
L6:;
TEST(a1);
TEST(v3);
SET8(v3, 0, AT8(a1, 0));
v3 = v3 + 1u;
a1 = a1 + 1u;
a2 = a2 - 1u;
if (a2 != 0u) goto L6;
L4:;
SET64(a0, 0, v7);
SET64(a0, 16, v5);
SET64(a0, 8, v4);
i0 = 0u;
L2:;
RUD_G0 = v6;
return i0;
}
rud_trap();
return 0;
}

static void in_multi3(RUD_IT u64 a0, u64 a1, u64 a2, u64 a3) {
u64 v4 = 0, v5 = 0, j1 = 0;
RUD_HERE
v4 = a3 >> 32;
v5 = a1 >> 32;
j1 = (v4 * v5) + (a2 * a3);
a2 = a3 & 4294967295u;
a1 = a1 & 4294967295u;
a3 = a2 * a1;
a2 = (a3 >> 32) + (a2 * v5);
a1 = (a1 * v4) + (a2 & 4294967295u);
TEST(a0);
SET64(a0, 8, (j1 + (a2 >> 32)) + (a1 >> 32));
SET64(a0, 0, (a3 & 4294967295u) | (a1 << 32));
}

static u32 in_core_char_digit_value(RUD_IT u32 a0) {
u32 v1 = 0;
RUD_NONE
if ((s64)RUD_G0 >= (s64)16u) {
v1 = 36u;
if (a0 < 48u) goto L2;
if (a0 <= 57u) {
return a0 - 48u;
}
if (a0 < 65u) goto L2;
if (a0 <= 90u) {
return a0 - 55u;
}
if (a0 < 97u) goto L2;
v1 = (a0 < 123u ? a0 : 123u) - 87u;
L2:;
return v1;
}
rud_trap();
return 0;
}

static void in_toml_parser_number_digits_value(RUD_IT u64 a0, u64 a1, u64 a2, u32 a3) {
u32 v7 = 0, v8 = 0, i2 = 0;
u64 v4 = 0, v5 = 0, v6 = 0, j0 = 0, j1 = 0;
RUD_HERE
v4 = RUD_G0 - 16u;
RUD_G0 = v4;
if ((s64)v4 >= (s64)16u) {
j0 = a0;
if (a2 == 0) {
v7 = 1u;
j1 = 0u;
goto L2;
}
L4:;
TEST(a1);
i2 = in_core_char_digit_value(RUD_AS AT8(a1, 0));
v8 = i2;
if (a3 <= v8) {
j1 = 0u;
goto L2;
}
in_multi3(RUD_AS v4, v5, 0u, (u64)a3);
TEST(v4);
v6 = AT64(v4, 0);
v5 = v6 + (u64)v8;
if (((u32)((s64)v5 >= (s64)0u) & (u32)((AT64(v4, 8) + (u64)(u32)(v5 < v6)) == 0)) == 0) { j1 = 0u; goto L2; }
a1 = a1 + 1u;
a2 = a2 - 1u;
if (!(a2 == 0)) goto L4;
v7 = 1u;
j1 = v5;
L2:;
TEST(j0);
SET64(j0, 8, j1);
TEST(a0);
SET8(a0, 0, v7);
RUD_G0 = v4 + 16u;
return;
}
rud_trap();
}

static void in_toml_parser_string_hex_escape(RUD_IT u64 a0, u64 a1, u64 a2, u64 a3) {
u32 v6 = 0;
u64 v4 = 0, v5 = 0;
RUD_HERE
v4 = RUD_G0 - 16u;
RUD_G0 = v4;
if ((s64)v4 >= (s64)16u) {
if (a2 < a3) {
TEST(a0);
SET64(a0, 24, 0u);
SET64(a0, 16, 0u);
SET64(a0, 8, 0u);
SET64(a0, 0, 0u);
goto L1;
}
in_toml_parser_number_digits_value(RUD_AS v4, a1, a3, 16u);
TEST(v4);
if (AT8(v4, 0) & 1u) {
v5 = AT64(v4, 8);
if (v5 <= 1114111u) goto L4;
TEST(a0);
SET64(a0, 24, 0u);
SET64(a0, 16, 0u);
SET64(a0, 8, 0u);
SET64(a0, 0, 0u);
goto L1;
}
TEST(a0);
SET64(a0, 24, 0u);
SET64(a0, 16, 0u);
SET64(a0, 8, 0u);
SET64(a0, 0, 0u);
goto L1;
L4:;
v6 = (u32)v5;
if ((v6 - 57344u) <= 4294965247u) {
TEST(a0);
SET64(a0, 0, 1u);
SET64(a0, 24, a2 - a3);
SET64(a0, 16, a1 + a3);
SET32(a0, 12, 0u);
SET32(a0, 8, v6);
goto L1;
}
TEST(a0);
SET64(a0, 24, 0u);
SET64(a0, 16, 0u);
SET64(a0, 8, 0u);
SET64(a0, 0, 0u);
goto L1;
}
rud_trap();
L1:;
RUD_G0 = v4 + 16u;
}

static u32 in_std_alloc_vec_Vec_push_795f5fd3dc7a282e(RUD_IT u64 a0, u32 a1) {
u32 i0 = 0, i1 = 0;
u64 v2 = 0, v3 = 0, v4 = 0;
RUD_HERE
v3 = RUD_G0;
if ((s64)v3 >= (s64)16u) {
v4 = a0 + 8u;
TEST(v4);
v2 = AT64(v4, 0);
if (v2 == AT64(v4, 8)) {
i1 = in_std_alloc_vec_Vec_grow_amortized_795f5fd3dc7a282e(RUD_AS a0, 1u);
RUD_AGAIN
if (i1 == 0) { i0 = 1u; goto L2; }
v2 = AT64(v4, 0);
}
TEST(a0);
PUT8(AT64(a0, 0) + v2, 0, a1);
SET64(v4, 0, v2 + 1u);
i0 = 0u;
L2:;
RUD_G0 = v3;
return i0;
}
rud_trap();
return 0;
}

static u32 in_std_alloc_string_add_wide_b8a35161b9a46061(RUD_IT u64 a0, u32 a1) {
u32 i0 = 0;
u64 v2 = 0;
RUD_HERE
v2 = RUD_G0 - 16u;
RUD_G0 = v2;
if ((s64)v2 >= (s64)16u) {
if (a1 <= 2047u) {
TEST(v2);
SET8(v2, 15, (a1 & 63u) | 128u);
SET8(v2, 14, (a1 >> 6) | 192u);
i0 = in_std_alloc_vec_Vec_extend_from_slice_d4fc6a806bb7b0db(RUD_AS a0, v2 + 14u, 2u);
RUD_AGAIN
i0 = i0 & 255u;
goto L2;
}
if (a1 <= 65535u) {
TEST(v2);
SET8(v2, 13, (a1 & 63u) | 128u);
SET8(v2, 11, (a1 >> 12) | 224u);
SET8(v2, 12, ((a1 >> 6) & 63u) | 128u);
i0 = in_std_alloc_vec_Vec_extend_from_slice_d4fc6a806bb7b0db(RUD_AS a0, v2 + 11u, 3u);
RUD_AGAIN
i0 = i0 & 255u;
goto L2;
}
TEST(v2);
SET8(v2, 10, (a1 & 63u) | 128u);
SET8(v2, 7, (a1 >> 18) - 16u);
SET8(v2, 9, ((a1 >> 6) & 63u) | 128u);
SET8(v2, 8, ((a1 >> 12) & 63u) | 128u);
i0 = in_std_alloc_vec_Vec_extend_from_slice_d4fc6a806bb7b0db(RUD_AS a0, v2 + 7u, 4u);
RUD_AGAIN
i0 = i0 & 255u;
L2:;
RUD_G0 = v2 + 16u;
return i0;
}
rud_trap();
return 0;
}

static void in_toml_parser_string_body(RUD_IT u64 a0, u64 a1, u64 a2, u32 a3, u32 a4) {
u32 v10 = 0, v11 = 0, v12 = 0, v13 = 0, i0 = 0;
u64 v5 = 0, v6 = 0, v7 = 0, v8 = 0, v9 = 0, j0 = 0, j1 = 0, j2 = 0;
RUD_HERE
v5 = RUD_G0 - 96u;
RUD_G0 = v5;
if ((s64)v5 >= (s64)16u) {
TEST(v5);
SET64(v5, 32, 0u);
SET64(v5, 40, 0u);
v13 = a3 & 255u;
SET64(v5, 24, v5 + 95u);
L5:;
SET8(v5, 55, a4);
SET8(v5, 54, a3);
SET8(v5, 53, 6u);
SET64(v5, 72, 0u);
SET64(v5, 56, a1);
SET64(v5, 80, v5 + 53u);
SET64(v5, 64, a2);
j2 = in_core_iter_base_Iterator_count_af506e600b762b0d(RUD_AS v5 + 56u);
v6 = j2;
i0 = in_std_alloc_vec_Vec_extend_from_slice_d4fc6a806bb7b0db(RUD_AS v5 + 24u, a1, v6);
RUD_AGAIN
if ((i0 & 255u) == 0) {
a1 = a1 + v6;
a2 = a2 - v6;
if (!(a2 == 0)) {
TEST(a1);
v11 = AT8(a1, 0);
if (v11 != (a3 & 255u)) goto L17;
goto L10;
}
if ((a3 & 255u) == 0) goto L10;
v12 = 1u;
v10 = 10u;
v6 = 0u;
goto L2;
L17:;
if (v11 == 92u) {
v6 = a2 - 1u;
v7 = a1 + 1u;
if (a4 == 0) goto L20;
SET8(v5, 55, 0u);
SET16(v5, 53, 0u);
SET64(v5, 72, 0u);
SET64(v5, 80, v5 + 53u);
SET64(v5, 56, v7);
SET64(v5, 64, v6);
j1 = in_core_iter_base_Iterator_count_af506e600b762b0d(RUD_AS v5 + 56u);
v8 = j1;
if (v6 == v8) goto L20;
v9 = v7 + v8;
TEST(v9);
v10 = AT8(v9, 0);
if (v10 != 10u) {
if ((u32)(v10 != 13u) | (u32)((v6 - v8) == 1u)) goto L20;
if (AT8(v9, 1) != 10u) goto L20;
}
in_toml_parser_text_skip_blank(RUD_AS v5 + 8u, v7, v6, 0u);
v10 = 1u;
a1 = AT64(v5, 8);
a2 = AT64(v5, 16);
goto L6;
L20:;
SET64(v5, 80, 0u);
SET64(v5, 72, 0u);
SET64(v5, 64, 0u);
SET64(v5, 56, 0u);
if (v6 == 0) goto L12;
v10 = AT8(a1, 1);
if (v10 <= 109u) {
if (v10 <= 97u) {
v11 = 34u;
if (v10 == 34u) goto L22;
if (v10 == 85u) goto L28;
v11 = 92u;
if (v10 == 92u) goto L22;
goto L12;
}
v11 = 8u;
switch (v10 - 98u) {
case 0u: goto L22;
default: goto L12;
case 3u: goto L27;
case 4u: goto L26;
}
}
switch (v10 - 110u) {
case 0u: goto L25;
default: goto L12;
case 4u: goto L24;
case 6u: goto L23;
case 7u: goto L31;
case 10u: goto L32;
}
L32:;
in_toml_parser_string_hex_escape(RUD_AS v5 + 56u, a1 + 2u, a2 - 2u, 2u);
goto L15;
L31:;
in_toml_parser_string_hex_escape(RUD_AS v5 + 56u, a1 + 2u, a2 - 2u, 4u);
goto L15;
L28:;
in_toml_parser_string_hex_escape(RUD_AS v5 + 56u, a1 + 2u, a2 - 2u, 8u);
goto L15;
L27:;
v11 = 27u;
goto L22;
L26:;
v11 = 12u;
goto L22;
L25:;
v11 = 10u;
goto L22;
L24:;
v11 = 13u;
goto L22;
L23:;
v11 = 9u;
L22:;
a1 = a1 + 2u;
a2 = a2 - 2u;
goto L14;
}
v12 = 1u;
if (a4 == 0) goto L9;
v10 = 10u;
if (v11 != 10u) {
if ((u32)(v11 != 13u) | (u32)(a2 == 1u)) goto L8;
if (AT8(a1, 1) != 10u) goto L8;
}
v10 = 1u;
i0 = in_std_alloc_vec_Vec_push_795f5fd3dc7a282e(RUD_AS v5 + 24u, v11);
RUD_AGAIN
if (i0 & 1u) goto L13;
a1 = a1 + 1u;
a2 = a2 - 1u;
goto L6;
}
if (!(AT64(v5, 40) == 0)) {
rud_dealloc(RUD_AS AT64(v5, 24));
RUD_AGAIN
}
TEST(a0);
SET64(a0, 0, 1u);
FILL_FEW(a0 + 8u, 0u, 40u);
goto L1;
L15:;
a2 = AT64(v5, 80);
a1 = AT64(v5, 72);
v11 = AT32(v5, 64);
if (AT8(v5, 56) != 1u) { i0 = 1u; goto L11; }
if (v11 <= 127u) goto L14;
v10 = 1u;
i0 = in_std_alloc_string_add_wide_b8a35161b9a46061(RUD_AS v5 + 24u, v11);
RUD_AGAIN
if (i0 & 255u) goto L13;
goto L6;
L14:;
v10 = 1u;
i0 = in_std_alloc_vec_Vec_push_795f5fd3dc7a282e(RUD_AS v5 + 24u, v11);
RUD_AGAIN
if ((i0 & 1u) == 0) goto L6;
L13:;
v10 = 0u;
goto L3;
L12:;
i0 = 1u;
L11:;
v12 = i0;
v10 = 11u;
goto L2;
L10:;
if (a4 == 0) goto L7;
v10 = 0u;
SET8(v5, 55, 0u);
SET8(v5, 54, a3);
SET8(v5, 53, 4u);
SET64(v5, 72, 0u);
SET64(v5, 64, a2);
SET64(v5, 56, a1);
SET64(v5, 80, v5 + 53u);
j0 = in_core_iter_base_Iterator_count_af506e600b762b0d(RUD_AS v5 + 56u);
v6 = j0;
if (v6 == 3u) {
a2 = a2 - 3u;
a1 = a1 + 3u;
goto L6;
}
if (v6 > 5u) {
v12 = 1u;
goto L9;
}
if ((s32)(u32)(s32)(s8)a3 >= (s32)0u) {
i0 = in_std_alloc_vec_Vec_push_795f5fd3dc7a282e(RUD_AS v5 + 24u, a3);
RUD_AGAIN
if ((i0 & 1u) == 0) goto L37;
goto L3;
}
i0 = in_std_alloc_string_add_wide_b8a35161b9a46061(RUD_AS v5 + 24u, v13);
RUD_AGAIN
if (i0 & 255u) goto L3;
L37:;
a2 = a2 - 1u;
a1 = a1 + 1u;
v10 = 1u;
goto L6;
L9:;
v10 = 10u;
L8:;
v6 = a2;
goto L2;
L7:;
a2 = a2 - 1u;
a1 = a1 + 1u;
v10 = 0u;
L6:;
if (v10) goto L5;
TEST(a0);
SET64(a0, 0, 0u);
SET16(a0, 8, AT16(v5, 24));
SET32(a0, 10, AT32(v5, 26));
SET16(a0, 14, AT16(v5, 30));
SET64(a0, 40, a2);
SET64(a0, 32, a1);
SET64(a0, 24, AT64(v5, 40));
SET64(a0, 16, AT64(v5, 32));
goto L1;
}
rud_trap();
L3:;
v6 = 0u;
v12 = 0u;
L2:;
if (!(AT64(v5, 40) == 0)) {
rud_dealloc(RUD_AS AT64(v5, 24));
RUD_AGAIN
}
TEST(a0);
SET64(a0, 0, 1u);
SET32(a0, 10, 0u);
SET8(a0, 9, v10);
SET8(a0, 8, v12);
SET16(a0, 14, 0u);
SET64(a0, 32, 0u);
SET64(a0, 24, v6);
SET64(a0, 16, v6);
SET64(a0, 40, 0u);
L1:;
RUD_G0 = v5 + 96u;
}

static void in_toml_parser_string_one_line(RUD_IT u64 a0, u64 a1, u64 a2) {
u32 i3 = 0;
u64 v3 = 0, j0 = 0, j1 = 0, j2 = 0;
RUD_HERE
v3 = RUD_G0 - 48u;
RUD_G0 = v3;
if ((s64)v3 >= (s64)16u) {
FILL_FEW(v3, 0u, 48u);
j0 = v3;
j1 = a1 + 1u;
j2 = a2 - 1u;
if (a2 == 0) {
i3 = 0u;
} else {
TEST(a1);
i3 = AT8(a1, 0);
}
in_toml_parser_string_body(RUD_AS j0, j1, j2, i3, 0u);
RUD_AGAIN
TEST(v3);
TEST(a0);
SET64(a0, 0, (u64)AT8(v3, 0));
COPY_FEW(a0 + 8u, v3 + 8u, 40u);
RUD_G0 = v3 + 48u;
return;
}
rud_trap();
}

static void in_byn_mgfn_shared_std_heap_GlobalAllocator_grow_483ec8513fd57e54(RUD_IT u64 a0, u64 a1, u64 a2, u64 a3, u64 a4, u64 a5) {
u32 v7 = 0;
u64 v6 = 0;
RUD_HERE
v6 = RUD_G0 - 16u;
RUD_G0 = v6;
if ((s64)v6 >= (s64)16u) {
TEST(v6);
SET64(v6, 8, 0u);
SET64(v6, 0, 0u);
rud_realloc(RUD_AS v6, a1, a2 * a5, a3 * a5, a4);
RUD_AGAIN
v7 = AT8(v6, 0);
TEST(a0);
SET64(a0, 8, v7 ? AT64(v6, 8) : 0ull);
SET8(a0, 0, v7 ^ 1u);
RUD_G0 = v6 + 16u;
return;
}
rud_trap();
}

static void in_std_heap_GlobalAllocator_grow_483ec8513fd57e54(RUD_IT u64 a0, u64 a1, u64 a2, u64 a3) {
RUD_NONE
in_byn_mgfn_shared_std_heap_GlobalAllocator_grow_483ec8513fd57e54(RUD_AS a0, a1, a2, a3, 8u, 24u);
}

static u32 in_std_alloc_vec_Vec_grow_amortized_27f1a6001881071a(RUD_IT u64 a0) {
u32 v6 = 0, v7 = 0;
u64 v1 = 0, v2 = 0, v3 = 0, v4 = 0, v5 = 0, j0 = 0;
RUD_HERE
v1 = RUD_G0 - 32u;
RUD_G0 = v1;
if ((s64)v1 >= (s64)16u) {
TEST(a0);
v4 = AT64(a0, 8);
if (v4 == 0xffffffffffffffffull) goto L2;
v2 = (v4 > 3u ? v4 : 3ull) + 1u;
v5 = AT64(a0, 16);
v3 = v5 << 1;
v3 = v2 > v3 ? v2 : v3;
v2 = v5 < 4611686018427387904ull ? v3 : v2;
if (v2 > 384307168202282325ull) goto L2;
if (!(v5 == 0)) {
in_std_heap_GlobalAllocator_grow_483ec8513fd57e54(RUD_AS v1 + 16u, AT64(a0, 0), v4, v2);
RUD_AGAIN
TEST(v1);
v7 = AT8(v1, 16);
j0 = AT64(v1, 24);
goto L3;
}
in_std_heap_GlobalAllocator_allocate(RUD_AS v1, v3 * 24u, 8u);
RUD_AGAIN
TEST(v1);
v7 = AT8(v1, 0);
j0 = v7 ? 0ull : AT64(v1, 8);
L3:;
v3 = j0;
if (v7) goto L2;
SET64(a0, 16, v2);
SET64(a0, 0, v3);
v6 = 1u;
L2:;
RUD_G0 = v1 + 32u;
return v6;
}
rud_trap();
return 0;
}

static void in_toml_parser_key_dotted_key(RUD_IT u64 a0, u64 a1, u64 a2) {
u32 v17 = 0, v18 = 0, v19 = 0, i0 = 0;
u64 v3 = 0, v4 = 0, v5 = 0, v6 = 0, v7 = 0, v8 = 0, v9 = 0, v10 = 0, v11 = 0, v12 = 0, v13 = 0, v14 = 0;
u64 v15 = 0, v16 = 0, j0 = 0, j1 = 0;
RUD_HERE
(void)v11;
(void)v13;
(void)v7;
v3 = RUD_G0 - 192u;
RUD_G0 = v3;
if ((s64)v3 >= (s64)16u) {
TEST(v3);
SET16(v3, 36, 0u);
SET32(v3, 32, 0u);
SET64(v3, 16, 0u);
SET64(v3, 24, 0u);
SET64(v3, 8, v3 + 184u);
v11 = v3 + 66u;
v12 = (v3 + 136u) | 2u;
v7 = v3 + 111u;
v13 = v3 + 168u;
v14 = 80u;
v4 = a2;
L7:;
FILL_FEW(v3 + 56u, 0u, 48u);
SET16(v3, 52, 0u);
SET32(v3, 48, 0u);
SET32(v3, 40, 0u);
SET16(v3, 44, 0u);
v17 = 0u;
if (v4 == 0) goto L9;
TEST(a1);
v17 = AT8(a1, 0);
if ((u32)(v17 != 39u) & (u32)(v17 != 34u)) goto L9;
in_toml_parser_string_one_line(RUD_AS v3 + 56u, a1, v4);
RUD_AGAIN
v6 = AT64(v3, 96);
a1 = AT64(v3, 88);
v5 = AT64(v3, 80);
v4 = AT64(v3, 72);
v19 = AT8(v3, 56);
goto L8;
L9:;
if ((((u32)(v17 == 95u) | (u32)(v17 == 45u)) | ((u32)(((v17 - 48u) & 255u) < 10u) | (u32)((((v17 & 223u) - 65u) & 255u) <= 25u))) == 0) {
v17 = 2u;
v18 = 1u;
a1 = 0u;
v6 = 0u;
v19 = 1u;
j0 = v4;
goto L10;
}
SET8(v3, 162, 0u);
SET16(v3, 160, 1u);
SET64(v3, 120, 0u);
SET64(v3, 128, v3 + 160u);
SET64(v3, 104, a1);
SET64(v3, 112, v4);
v5 = in_core_iter_base_Iterator_count_af506e600b762b0d(RUD_AS v3 + 104u);
SET64(v3, 168, 0u);
SET64(v3, 176, 0u);
SET64(v3, 160, v3 + 184u);
if (v5 == 0) goto L12;
i0 = in_std_alloc_vec_Vec_move_to_795f5fd3dc7a282e(RUD_AS v3 + 160u, v5);
RUD_AGAIN
if (i0) goto L12;
if (AT64(v3, 176) == 0) goto L3;
rud_dealloc(RUD_AS AT64(v3, 160));
RUD_AGAIN
goto L3;
L12:;
SET64(v3, 127, AT64(v3, 176));
SET64(v3, 119, AT64(v3, 168));
SET64(v3, 111, AT64(v3, 160));
SET64(v3, 136, AT64(v3, 111));
SET64(v3, 144, AT64(v3, 119));
SET64(v3, 152, AT64(v3, 127));
i0 = in_std_alloc_vec_Vec_extend_from_slice_d4fc6a806bb7b0db(RUD_AS v3 + 136u, a1, v5);
RUD_AGAIN
if (i0 & 255u) goto L4;
v6 = v4 - v5;
a1 = a1 + v5;
TEST(v12);
v17 = AT32(v12, 0);
SET32(v3, 40, v17);
v18 = AT16(v12, 4);
SET16(v3, 44, v18);
SET32(v3, 48, v17);
SET16(v3, 52, v18);
v17 = AT8(v3, 137);
v18 = AT8(v3, 136);
v4 = AT64(v3, 144);
v19 = 0u;
j0 = AT64(v3, 152);
L10:;
v5 = j0;
SET32(v3, 66, AT32(v3, 48));
SET16(v3, 70, AT16(v3, 52));
SET8(v3, 65, v17);
SET8(v3, 64, v18);
L8:;
v9 = AT64(v3, 64);
v17 = (u32)(v9 >> 8);
v18 = (u32)v9;
if (v19) { i0 = v18; goto L2; }
v8 = v9 >> 16;
SET8(v3, 106, 0u);
SET16(v3, 104, 0u);
SET64(v3, 72, 0u);
SET64(v3, 80, v3 + 104u);
SET64(v3, 56, a1);
SET64(v3, 64, v6);
j1 = in_core_iter_base_Iterator_count_af506e600b762b0d(RUD_AS v3 + 56u);
v15 = j1;
v16 = v6 - v15;
v10 = a1 + v15;
if (v6 == v15) {
a1 = AT64(v3, 16);
goto L14;
}
a1 = AT64(v3, 16);
TEST(v10);
if (AT8(v10, 0) == 46u) goto L13;
L14:;
TEST(a0);
SET64(a0, 0, 0u);
SET16(a0, 38, (u32)(v8 >> 32));
SET32(a0, 34, (u32)v8);
SET16(a0, 8, AT16(v3, 8));
SET32(a0, 10, AT32(v3, 10));
SET16(a0, 14, AT16(v3, 14));
SET64(a0, 64, v16);
SET64(a0, 56, v10);
SET64(a0, 48, v5);
SET64(a0, 40, v4);
SET8(a0, 33, v17);
SET8(a0, 32, v18);
SET64(a0, 24, AT64(v3, 24));
SET64(a0, 16, a1);
goto L1;
L13:;
if (a1 == AT64(v3, 24)) {
i0 = in_std_alloc_vec_Vec_grow_amortized_27f1a6001881071a(RUD_AS v3 + 8u);
RUD_AGAIN
if (i0 == 0) goto L6;
a1 = AT64(v3, 16);
}
v6 = AT64(v3, 8) + (a1 * 24u);
TEST(v6);
SET32(v6, 2, (u32)v8);
SET64(v6, 16, v5);
SET64(v6, 8, v4);
SET8(v6, 1, v17);
SET8(v6, 0, v18);
SET16(v6, 6, (u32)(v8 >> 32));
SET64(v3, 16, a1 + 1u);
SET8(v3, 106, 0u);
SET16(v3, 104, 0u);
SET64(v3, 72, 0u);
a1 = v10 + 1u;
SET64(v3, 56, a1);
v4 = v16 - 1u;
SET64(v3, 64, v4);
SET64(v3, 80, v3 + 104u);
j1 = in_core_iter_base_Iterator_count_af506e600b762b0d(RUD_AS v3 + 56u);
v5 = j1;
v4 = v4 - v5;
a1 = a1 + v5;
v14 = v14 - 1u;
if (!(v14 == 0)) goto L7;
in_std_alloc_vec_Vec_drop_95beaedac91b374b(RUD_AS v3 + 8u);
RUD_AGAIN
TEST(a0);
SET64(a0, 0, 1u);
SET16(a0, 8, 4609u);
SET32(a0, 10, AT32(v3, 32));
SET16(a0, 14, AT16(v3, 36));
SET64(a0, 24, v4);
SET64(a0, 16, a2);
FILL_FEW(a0 + 32u, 0u, 40u);
goto L1;
L6:;
if (!(v5 == 0)) {
rud_dealloc(RUD_AS v9);
RUD_AGAIN
}
in_std_alloc_vec_Vec_drop_95beaedac91b374b(RUD_AS v3 + 8u);
RUD_AGAIN
TEST(a0);
SET64(a0, 0, 1u);
FILL_FEW(a0 + 8u, 0u, 64u);
goto L1;
}
rud_trap();
L4:;
if (AT64(v3, 152) == 0) goto L3;
rud_dealloc(RUD_AS AT64(v3, 136));
RUD_AGAIN
L3:;
v17 = 0u;
v5 = 0u;
v4 = 0u;
i0 = 0u;
L2:;
v18 = i0;
in_std_alloc_vec_Vec_drop_95beaedac91b374b(RUD_AS v3 + 8u);
RUD_AGAIN
TEST(a0);
SET64(a0, 0, 1u);
SET32(a0, 10, 0u);
SET8(a0, 9, v17);
SET8(a0, 8, v18);
SET16(a0, 14, 0u);
SET64(a0, 24, v5);
SET64(a0, 16, v4);
FILL_FEW(a0 + 32u, 0u, 40u);
L1:;
RUD_G0 = v3 + 192u;
}

static void in_toml_de_document_header_key(RUD_IT u64 a0, u64 a1, u64 a2) {
u32 v10 = 0, v11 = 0;
u64 v3 = 0, v4 = 0, v5 = 0, v6 = 0, v7 = 0, v8 = 0, v9 = 0, j0 = 0, j2 = 0;
RUD_HERE
(void)v5;
v3 = RUD_G0 - 144u;
RUD_G0 = v3;
if ((s64)v3 >= (s64)16u) {
v4 = v3 + 32u;
FILL_FEW(v4, 0u, 72u);
TEST(v3);
SET64(v3, 24, 0u);
SET64(v3, 16, 0u);
SET64(v3, 8, 0u);
SET8(v3, 143, 0u);
SET16(v3, 141, 0u);
SET64(v3, 120, 0u);
SET64(v3, 128, v3 + 141u);
SET64(v3, 104, a1);
SET64(v3, 112, a2);
j2 = in_core_iter_base_Iterator_count_af506e600b762b0d(RUD_AS v3 + 104u);
j0 = v4;
v4 = j2;
in_toml_parser_key_dotted_key(RUD_AS j0, a1 + v4, a2 - v4);
RUD_AGAIN
v6 = AT64(v3, 56);
v7 = AT64(v3, 48);
v10 = AT8(v3, 41);
v11 = AT8(v3, 40);
if (AT8(v3, 32) == 0) {
v5 = v3 + 42u;
v9 = AT64(v3, 80);
v4 = AT64(v3, 64);
v8 = AT64(v3, 96);
if (!(v8 == 0)) {
a2 = AT64(v3, 88);
TEST(a2);
if (AT8(a2, 0) == 93u) goto L3;
}
SET8(v3, 9, v10);
SET8(v3, 8, v11);
SET64(v3, 24, v6);
SET64(v3, 16, v7);
SET32(v3, 10, AT32(v3, 42));
SET16(v3, 14, AT16(v3, 46));
in_std_alloc_vec_Vec_drop_95beaedac91b374b(RUD_AS v3 + 8u);
RUD_AGAIN
if (!(v9 == 0)) {
rud_dealloc(RUD_AS v4);
RUD_AGAIN
}
TEST(a0);
SET64(a0, 0, 1u);
SET32(a0, 10, 0u);
SET16(a0, 8, 1025u);
SET16(a0, 14, 0u);
SET64(a0, 24, v8);
SET64(a0, 16, v8);
FILL_FEW(a0 + 32u, 0u, 40u);
goto L1;
}
TEST(a0);
SET64(a0, 0, 1u);
SET32(a0, 10, 0u);
SET8(a0, 9, v10);
SET8(a0, 8, v11);
SET16(a0, 14, 0u);
SET64(a0, 24, v6);
SET64(a0, 16, v7);
FILL_FEW(a0 + 32u, 0u, 40u);
goto L1;
L3:;
a1 = AT64(v3, 72);
TEST(a0);
SET64(a0, 0, 0u);
SET8(a0, 9, v10);
SET8(a0, 8, v11);
SET32(a0, 10, AT32(v3, 42));
SET16(a0, 14, AT16(v3, 46));
SET64(a0, 64, v8 - 1u);
SET64(a0, 56, a2 + 1u);
SET64(a0, 48, v9);
SET64(a0, 40, a1);
SET64(a0, 32, v4);
SET64(a0, 24, v6);
SET64(a0, 16, v7);
goto L1;
}
rud_trap();
L1:;
RUD_G0 = v3 + 144u;
}

static void in_toml_de_value_key_equals(RUD_IT u64 a0, u64 a1, u64 a2) {
u32 v11 = 0, v12 = 0;
u64 v3 = 0, v4 = 0, v5 = 0, v6 = 0, v7 = 0, v8 = 0, v9 = 0, v10 = 0;
RUD_HERE
(void)v5;
v3 = RUD_G0 - 144u;
RUD_G0 = v3;
if ((s64)v3 >= (s64)16u) {
v4 = v3 + 32u;
FILL_FEW(v4, 0u, 72u);
in_toml_parser_key_dotted_key(RUD_AS v4, a1, a2);
RUD_AGAIN
TEST(v3);
v6 = AT64(v3, 56);
v7 = AT64(v3, 48);
v11 = AT8(v3, 41);
v12 = AT8(v3, 40);
if (AT8(v3, 32) == 0) {
v5 = v3 + 42u;
v8 = AT64(v3, 80);
v9 = AT64(v3, 64);
v4 = AT64(v3, 96);
if (!(v4 == 0)) {
a1 = AT64(v3, 88);
TEST(a1);
if (AT8(a1, 0) == 61u) goto L3;
}
SET8(v3, 9, v11);
SET8(v3, 8, v12);
SET64(v3, 24, v6);
SET64(v3, 16, v7);
SET32(v3, 10, AT32(v3, 42));
SET16(v3, 14, AT16(v3, 46));
in_std_alloc_vec_Vec_drop_95beaedac91b374b(RUD_AS v3 + 8u);
RUD_AGAIN
if (!(v8 == 0)) {
rud_dealloc(RUD_AS v9);
RUD_AGAIN
}
TEST(a0);
SET64(a0, 0, 1u);
SET32(a0, 10, 0u);
SET16(a0, 8, 769u);
SET16(a0, 14, 0u);
SET64(a0, 24, v4);
SET64(a0, 16, v4);
FILL_FEW(a0 + 32u, 0u, 40u);
goto L1;
}
TEST(a0);
SET64(a0, 0, 1u);
SET32(a0, 10, 0u);
SET8(a0, 9, v11);
SET8(a0, 8, v12);
SET16(a0, 14, 0u);
SET64(a0, 24, v6);
SET64(a0, 16, v7);
FILL_FEW(a0 + 32u, 0u, 40u);
goto L1;
L3:;
v10 = AT64(v3, 72);
SET8(v3, 143, 0u);
SET16(v3, 141, 0u);
SET64(v3, 120, 0u);
a2 = a1 + 1u;
SET64(v3, 104, a2);
a1 = v4 - 1u;
SET64(v3, 112, a1);
SET64(v3, 128, v3 + 141u);
v4 = in_core_iter_base_Iterator_count_af506e600b762b0d(RUD_AS v3 + 104u);
TEST(a0);
SET8(a0, 9, v11);
SET8(a0, 8, v12);
SET64(a0, 0, 0u);
SET64(a0, 64, a1 - v4);
SET64(a0, 56, a2 + v4);
SET64(a0, 48, v8);
SET64(a0, 40, v10);
SET64(a0, 32, v9);
SET64(a0, 24, v6);
SET64(a0, 16, v7);
SET32(a0, 10, AT32(v3, 42));
SET16(a0, 14, AT16(v3, 46));
goto L1;
}
rud_trap();
L1:;
RUD_G0 = v3 + 144u;
}

static u32 in_core_cmp_text_RefStrPartialEq_eq(RUD_IT u64 a0, u64 a1) {
u32 i0 = 0, i1 = 0, i2 = 0, i3 = 0;
u64 v2 = 0, v3 = 0, v4 = 0, v5 = 0, v6 = 0, j0 = 0;
RUD_HERE
v6 = RUD_G0 - 48u;
RUD_G0 = v6;
if ((s64)v6 >= (s64)16u) {
TEST(a0);
v2 = AT64(a0, 8);
TEST(a1);
if (v2 != AT64(a1, 8)) { i0 = 0u; goto L2; }
a1 = AT64(a1, 0);
a0 = AT64(a0, 0);
if (v2 <= 7u) {
in_core_cmp_bytes_read_short(RUD_AS v6, a0, a1, v2);
TEST(v6);
i0 = AT64(v6, 0) == AT64(v6, 8);
goto L2;
}
if (v2 <= 32u) {
TEST(a0);
TEST(a1);
v2 = v2 - 8u;
v3 = v2 < 8u ? v2 : 8ull;
i0 = (u32)(AT64(a0, 0) == AT64(a1, 0)) & (u32)(GET64(a0 + v3, 0) == GET64(a1 + v3, 0));
v3 = v2 < 16u ? v2 : 16ull;
i0 = (i0 & (u32)(GET64(a0 + v3, 0) == GET64(a1 + v3, 0))) & (u32)(GET64(a0 + v2, 0) == GET64(a1 + v2, 0));
goto L2;
}
TEST(v6);
SET64(v6, 40, v2);
SET64(v6, 32, a1);
SET64(v6, 24, v2);
SET64(v6, 16, a0);
if (v2 >= 65u) {
a1 = 0u;
a0 = v2;
goto L6;
}
TEST(a0);
TEST(a1);
v4 = v2 - 16u;
v3 = v4 < 32u ? v4 : 32ull;
v2 = a0 + v3;
TEST(v2);
v3 = a1 + v3;
TEST(v3);
v5 = a0 + v4;
TEST(v5);
v4 = a1 + v4;
TEST(v4);
i0 = ((((u32)(AT8(a0, 0) != AT8(a1, 0)) | (u32)(AT8(a0, 16) != AT8(a1, 16))) | (u32)(AT8(v2, 0) != AT8(v3, 0))) | (u32)(AT8(v5, 0) != AT8(v4, 0))) | (((((u32)(AT8(a0, 1) != AT8(a1, 1)) | (u32)(AT8(a0, 17) != AT8(a1, 17))) | (u32)(AT8(v2, 1) != AT8(v3, 1))) | (u32)(AT8(v5, 1) != AT8(v4, 1))) << 1);
i1 = (((((u32)(AT8(a0, 3) != AT8(a1, 3)) | (u32)(AT8(a0, 19) != AT8(a1, 19))) | (u32)(AT8(v2, 3) != AT8(v3, 3))) | (u32)(AT8(v5, 3) != AT8(v4, 3))) << 3) | (((((u32)(AT8(a0, 2) != AT8(a1, 2)) | (u32)(AT8(a0, 18) != AT8(a1, 18))) | (u32)(AT8(v2, 2) != AT8(v3, 2))) | (u32)(AT8(v5, 2) != AT8(v4, 2))) << 2);
i0 = i0 | i1;
i1 = ((((u32)(AT8(a0, 4) != AT8(a1, 4)) | (u32)(AT8(a0, 20) != AT8(a1, 20))) | (u32)(AT8(v2, 4) != AT8(v3, 4))) | (u32)(AT8(v5, 4) != AT8(v4, 4))) | (((((u32)(AT8(a0, 5) != AT8(a1, 5)) | (u32)(AT8(a0, 21) != AT8(a1, 21))) | (u32)(AT8(v2, 5) != AT8(v3, 5))) | (u32)(AT8(v5, 5) != AT8(v4, 5))) << 1);
i2 = (((((u32)(AT8(a0, 7) != AT8(a1, 7)) | (u32)(AT8(a0, 23) != AT8(a1, 23))) | (u32)(AT8(v2, 7) != AT8(v3, 7))) | (u32)(AT8(v5, 7) != AT8(v4, 7))) << 3) | (((((u32)(AT8(a0, 6) != AT8(a1, 6)) | (u32)(AT8(a0, 22) != AT8(a1, 22))) | (u32)(AT8(v2, 6) != AT8(v3, 6))) | (u32)(AT8(v5, 6) != AT8(v4, 6))) << 2);
i0 = i0 | ((i1 | i2) << 4);
i1 = ((((u32)(AT8(a0, 12) != AT8(a1, 12)) | (u32)(AT8(a0, 28) != AT8(a1, 28))) | (u32)(AT8(v2, 12) != AT8(v3, 12))) | (u32)(AT8(v5, 12) != AT8(v4, 12))) | (((((u32)(AT8(a0, 13) != AT8(a1, 13)) | (u32)(AT8(a0, 29) != AT8(a1, 29))) | (u32)(AT8(v2, 13) != AT8(v3, 13))) | (u32)(AT8(v5, 13) != AT8(v4, 13))) << 1);
i2 = (((((u32)(AT8(a0, 15) != AT8(a1, 15)) | (u32)(AT8(a0, 31) != AT8(a1, 31))) | (u32)(AT8(v2, 15) != AT8(v3, 15))) | (u32)(AT8(v5, 15) != AT8(v4, 15))) << 3) | (((((u32)(AT8(a0, 14) != AT8(a1, 14)) | (u32)(AT8(a0, 30) != AT8(a1, 30))) | (u32)(AT8(v2, 14) != AT8(v3, 14))) | (u32)(AT8(v5, 14) != AT8(v4, 14))) << 2);
i1 = (i1 | i2) << 12;
i2 = ((((u32)(AT8(a0, 8) != AT8(a1, 8)) | (u32)(AT8(a0, 24) != AT8(a1, 24))) | (u32)(AT8(v2, 8) != AT8(v3, 8))) | (u32)(AT8(v5, 8) != AT8(v4, 8))) | (((((u32)(AT8(a0, 9) != AT8(a1, 9)) | (u32)(AT8(a0, 25) != AT8(a1, 25))) | (u32)(AT8(v2, 9) != AT8(v3, 9))) | (u32)(AT8(v5, 9) != AT8(v4, 9))) << 1);
i3 = (((((u32)(AT8(a0, 11) != AT8(a1, 11)) | (u32)(AT8(a0, 27) != AT8(a1, 27))) | (u32)(AT8(v2, 11) != AT8(v3, 11))) | (u32)(AT8(v5, 11) != AT8(v4, 11))) << 3) | (((((u32)(AT8(a0, 10) != AT8(a1, 10)) | (u32)(AT8(a0, 26) != AT8(a1, 26))) | (u32)(AT8(v2, 10) != AT8(v3, 10))) | (u32)(AT8(v5, 10) != AT8(v4, 10))) << 2);
i0 = (i0 | (i1 | ((i2 | i3) << 8))) != 0u;
goto L5;
L6:;
L9:;
j0 = in_core_slice_scan_ByteMismatchLaneTest_marks_64(RUD_AS v6 + 16u, a1);
if (j0 == 0) {
a1 = a1 + 64u;
a0 = a0 - 64u;
if (a0 >= 65u) goto L9;
goto L8;
}
i0 = 1u;
goto L5;
L8:;
j0 = in_core_slice_scan_ByteMismatchLaneTest_marks_64(RUD_AS v6 + 16u, v2 - 64u);
i0 = j0 != 0u;
L5:;
i0 = i0 ^ 1u;
L2:;
RUD_G0 = v6 + 48u;
return i0;
}
rud_trap();
return 0;
}

static void in_toml_datetime_parse_two_digits(RUD_IT u64 a0, u64 a1, u64 a2) {
u32 v6 = 0, v7 = 0, v8 = 0;
u64 v3 = 0, v4 = 0, v5 = 0, j0 = 0;
RUD_HERE
v3 = RUD_G0 - 16u;
if ((s64)v3 >= (s64)16u) {
TEST(v3);
SET32(v3, 11, 0u);
SET32(v3, 8, 0u);
if (a2 < 2u) goto L2;
TEST(a1);
v7 = AT8(a1, 0);
if (((v7 - 48u) & 255u) > 9u) goto L2;
v8 = AT8(a1, 1);
if (((v8 - 48u) & 255u) > 9u) { j0 = 0u; goto L1; }
v5 = a1 + 2u;
v6 = ((v7 * 10u) + v8) - 16u;
v4 = 1u;
j0 = a2 - 2u;
goto L1;
}
rud_trap();
L2:;
j0 = 0u;
L1:;
a1 = j0;
TEST(a0);
SET64(a0, 0, v4);
SET8(a0, 8, v6);
SET32(a0, 9, AT32(v3, 8));
SET32(a0, 12, AT32(v3, 11));
SET64(a0, 24, a1);
SET64(a0, 16, v5);
}

static void in_toml_datetime_parse_partial_time(RUD_IT u64 a0, u64 a1, u64 a2) {
u32 v8 = 0, v9 = 0, v10 = 0, v11 = 0, v12 = 0, v13 = 0, v14 = 0, v15 = 0, v16 = 0, v17 = 0, v18 = 0, i0 = 0;
u32 i1 = 0;
u64 v3 = 0, v4 = 0, v5 = 0, v6 = 0, v7 = 0, j0 = 0, j1 = 0;
RUD_HERE
v3 = RUD_G0 - 112u;
RUD_G0 = v3;
if ((s64)v3 >= (s64)16u) {
TEST(v3);
SET64(v3, 72, 0u);
SET64(v3, 64, 0u);
SET64(v3, 56, 0u);
SET64(v3, 48, 0u);
SET64(v3, 16, 0u);
SET64(v3, 24, 0u);
SET64(v3, 32, 0u);
SET64(v3, 40, 0u);
in_toml_datetime_parse_two_digits(RUD_AS v3 + 48u, a1, a2);
if (AT8(v3, 48) == 1u) {
a1 = AT64(v3, 72);
if (a1 == 0) goto L7;
a2 = AT64(v3, 64);
TEST(a2);
if (AT8(a2, 0) != 58u) goto L7;
v12 = AT8(v3, 56);
in_toml_datetime_parse_two_digits(RUD_AS v3 + 16u, a2 + 1u, a1 - 1u);
if (AT8(v3, 16) != 1u) goto L4;
a1 = AT64(v3, 32);
v11 = AT8(v3, 24);
a2 = AT64(v3, 40);
SET64(v3, 104, 0u);
SET64(v3, 96, 0u);
SET64(v3, 88, 0u);
SET64(v3, 80, 0u);
if (!(a2 == 0)) goto L6;
a2 = 0u;
i0 = 0u;
goto L2;
}
FILL_FEW(a0, 0u, 40u);
goto L1;
L7:;
FILL_FEW(a0, 0u, 40u);
goto L1;
L6:;
TEST(a1);
if (AT8(a1, 0) != 58u) goto L3;
in_toml_datetime_parse_two_digits(RUD_AS v3 + 80u, a1 + 1u, a2 - 1u);
if (AT8(v3, 80) != 1u) goto L9;
a1 = AT64(v3, 96);
v9 = AT8(v3, 88);
a2 = AT64(v3, 104);
if (!(a2 == 0)) {
TEST(a1);
if (AT8(a1, 0) == 46u) goto L10;
}
v8 = (v9 << 8) | 1u;
goto L3;
L10:;
v4 = a2 - 1u;
if (v4 == 0) goto L9;
v5 = a1 + 1u;
a1 = 0u;
L13:;
if (((GET8(a1 + v5, 0) - 48u) & 255u) > 9u) goto L12;
a1 = a1 + 1u;
if (v4 != a1) goto L13;
a1 = v4;
L12:;
if (a1 == 0) goto L9;
v6 = a1 < 9u ? a1 : 9ull;
v8 = 1000000000u;
a2 = v5;
L14:;
v8 = (v8 / 10u);
TEST(a2);
v10 = (v8 * ((AT8(a2, 0) - 48u) & 255u)) + v10;
a2 = a2 + 1u;
v6 = v6 - 1u;
if (v6 != 0u) goto L14;
a2 = v4 - a1;
a1 = a1 + v5;
v8 = (v9 << 8) | 1u;
i0 = 1u;
goto L2;
L9:;
FILL_FEW(a0, 0u, 40u);
goto L1;
}
rud_trap();
L4:;
FILL_FEW(a0, 0u, 40u);
goto L1;
L3:;
i0 = 0u;
L2:;
v9 = i0;
SET32(v3, 12, v10);
SET32(v3, 8, v9);
SET8(v3, 5, v11);
SET8(v3, 4, v12);
SET8(v3, 6, v8);
v13 = v8 >> 8;
SET8(v3, 7, v13);
j0 = a0;
v4 = v3 + 4u;
if ((s64)RUD_G0 >= (s64)16u) {
if (AT8(v3, 4) > 23u) goto L18;
if (AT8(v3, 5) > 59u) goto L18;
v16 = AT32(v3, 12);
v15 = AT8(v3, 8);
v17 = AT8(v3, 6);
if (v17 == 1u) {
if (AT8(v3, 7) > 60u) goto L18;
}
if ((u32)(v15 == 1u) & (u32)(v16 > 999999999u)) goto L18;
v14 = (u32)(v17 == 1u) | (u32)(v15 != 1u);
L18:;
i1 = v14;
goto L16;
}
rud_trap();
L16:;
if (i1 == 0) {
v11 = 0u;
v8 = 0u;
v13 = 0u;
v9 = 0u;
v10 = 0u;
a2 = 0u;
j1 = 0u;
goto L15;
}
v18 = v12;
v7 = a1;
j1 = 1u;
L15:;
TEST(j0);
SET64(j0, 0, j1);
TEST(a0);
SET64(a0, 32, a2);
SET64(a0, 24, v7);
SET32(a0, 20, 0u);
SET32(a0, 16, v10);
SET32(a0, 12, v9);
SET8(a0, 11, v13);
SET8(a0, 10, v8);
SET8(a0, 9, v11);
SET8(a0, 8, v18);
L1:;
RUD_G0 = v3 + 112u;
}

static void in_toml_datetime_parse_offset_minutes(RUD_IT u64 a0, u64 a1, u64 a2) {
u32 v4 = 0, v5 = 0, v6 = 0;
u64 v3 = 0;
RUD_HERE
v3 = RUD_G0 - 112u;
RUD_G0 = v3;
if ((s64)v3 >= (s64)16u) {
TEST(v3);
SET64(v3, 104, 0u);
SET64(v3, 96, 0u);
SET64(v3, 88, 0u);
SET64(v3, 80, 0u);
SET64(v3, 48, 0u);
SET64(v3, 56, 0u);
SET64(v3, 64, 0u);
SET64(v3, 72, 0u);
SET64(v3, 24, 0u);
SET64(v3, 32, 0u);
SET64(v3, 38, 0u);
SET32(v3, 0, 0u);
SET16(v3, 4, 0u);
in_toml_datetime_parse_two_digits(RUD_AS v3 + 80u, a1, a2);
if (AT8(v3, 80) == 1u) {
a2 = AT64(v3, 104);
if (a2 == 0) goto L4;
a1 = AT64(v3, 96);
TEST(a1);
if (AT8(a1, 0) != 58u) goto L4;
v4 = AT8(v3, 88);
in_toml_datetime_parse_two_digits(RUD_AS v3 + 48u, a1 + 1u, a2 - 1u);
if (AT8(v3, 48) != 1u) goto L3;
a2 = 0u;
if (v4 > 23u) goto L6;
v6 = AT8(v3, 56);
if (v6 >= 60u) goto L6;
SET64(v3, 6, AT64(v3, 64));
a1 = AT64(v3, 72);
SET64(v3, 14, a1);
SET64(v3, 38, a1);
SET64(v3, 24, AT64(v3, 0));
SET64(v3, 32, AT64(v3, 8));
v5 = (v4 * 60u) + v6;
a2 = 1u;
L6:;
TEST(a0);
SET64(a0, 0, a2);
SET16(a0, 8, v5);
SET64(a0, 10, AT64(v3, 24));
SET64(a0, 18, AT64(v3, 32));
SET64(a0, 24, AT64(v3, 38));
goto L1;
}
TEST(a0);
SET64(a0, 24, 0u);
SET64(a0, 16, 0u);
SET64(a0, 8, 0u);
SET64(a0, 0, 0u);
goto L1;
L4:;
TEST(a0);
SET64(a0, 24, 0u);
SET64(a0, 16, 0u);
SET64(a0, 8, 0u);
SET64(a0, 0, 0u);
goto L1;
L3:;
TEST(a0);
SET64(a0, 24, 0u);
SET64(a0, 16, 0u);
SET64(a0, 8, 0u);
SET64(a0, 0, 0u);
goto L1;
}
rud_trap();
L1:;
RUD_G0 = v3 + 112u;
}

static u32 in_toml_parser_number_radix_of(RUD_IT u64 a0, u64 a1) {
u32 v2 = 0, v3 = 0;
RUD_HERE
if ((s64)RUD_G0 >= (s64)16u) {
v2 = 10u;
if (a1 == 0) goto L1;
TEST(a0);
if ((u32)(AT8(a0, 0) != 48u) | (u32)(a1 == 1u)) goto L1;
v3 = AT8(a0, 1);
if (v3 == 98u) goto L2;
if (v3 == 120u) {
return 16u;
}
if (v3 != 111u) goto L1;
return 8u;
}
rud_trap();
return 0;
L2:;
v2 = 2u;
L1:;
return v2;
}

static void in_ashlti3(RUD_IT u64 a0, u64 a1, u64 a2, u32 a3) {
u64 v4 = 0, j0 = 0;
RUD_HERE
if (a3 & 64u) {
a2 = a1 << ((u64)a3 & 63);
j0 = 0u;
goto L1;
}
v4 = (u64)a3;
a2 = (a2 << (v4 & 63)) | ((a1 >> 1) >> ((u64)((a3 & 63u) ^ 63u) & 63));
j0 = a1 << (v4 & 63);
L1:;
a1 = j0;
TEST(a0);
SET64(a0, 8, a2);
SET64(a0, 0, a1);
}

static void in_core_dec2flt_lemire_eisel_lemire_wide_1d521972340cebc2(RUD_IT u64 a0, u64 a1, u64 a2, u64 a3) {
u32 v12 = 0, i0 = 0;
u64 v4 = 0, v5 = 0, v6 = 0, v7 = 0, v8 = 0, v9 = 0, v10 = 0, v11 = 0, j0 = 0, j1 = 0;
RUD_HERE
v4 = RUD_G0 - 80u;
RUD_G0 = v4;
if ((s64)v4 >= (s64)16u) {
v5 = a3 << 4;
v9 = rud_clz64(a1);
a1 = a1 << (v9 & 63);
in_multi3(RUD_AS v4 + 64u, GET_FAR64(v5, 4194488), 0u, a1);
in_multi3(RUD_AS v4 + 48u, GET_FAR64(v5, 4194480), 0u, a1);
a1 = v9 + 1191u;
TEST(v4);
v5 = AT64(v4, 56);
v7 = v5 + AT64(v4, 64);
v5 = AT64(v4, 72) + (u64)(u32)(v7 < v5);
v6 = v5 >> 63;
a3 = (v6 + (((a3 * 217706u) + 58980u) >> 16)) + 1139u;
v8 = a1 - a3;
v6 = ((a1 < v8 ? 0ull : v8) + v6) + 72u;
if (v6 > 127u) { j0 = 0u; goto L3; }
a1 = a3 - a1;
a1 = a1 > a3 ? 0ull : a1;
v7 = (v5 << 62) | (v7 >> 2);
v8 = v5 >> 2;
a3 = v8;
v10 = v4 + 32u;
j0 = v10;
v12 = (u32)v6;
if (v12 & 64u) {
v5 = a3 >> ((u64)v12 & 63);
j1 = 0u;
goto L4;
}
v6 = (u64)v12;
v5 = ((a3 << 1) << ((u64)((v12 & 63u) ^ 63u) & 63)) | (v7 >> (v6 & 63));
j1 = a3 >> (v6 & 63);
L4:;
SET64(v4, 40, j1);
SET64(v4, 32, v5);
in_ashlti3(RUD_AS v4 + 16u, 0xffffffffffffffffull, 0xffffffffffffffffull, v12);
in_ashlti3(RUD_AS v4, 1u, 0u, v12 - 1u);
a3 = AT64(v4, 32);
v5 = AT64(v4, 0);
v7 = v7 & (AT64(v4, 16) ^ 0xffffffffffffffffull);
v6 = AT64(v4, 8);
v8 = v8 & (AT64(v4, 24) ^ 0xffffffffffffffffull);
if ((v6 == v8 ? (u32)(v5 >= v7) : (u32)(v6 >= v8)) == 0) {
a1 = (a3 + (a1 << 52)) + 1u;
j0 = a1 < 9218868437227405312ull ? a1 : 9218868437227405312ull;
goto L3;
}
a2 = a2 << (v9 & 63);
i0 = (v5 - v7) < ((a2 << 62) | 2u);
a2 = a2 >> 2;
v9 = (v6 - v8) - (u64)(u32)(v5 < v7);
if (a2 == v9 ? i0 : (u32)(a2 > v9)) {
v11 = 1u;
goto L2;
}
a1 = (a1 << 52) + a3;
j0 = a1 < 9218868437227405312ull ? a1 : 9218868437227405312ull;
L3:;
a3 = j0;
a1 = 0u;
L2:;
TEST(a0);
SET64(a0, 0, v11);
SET64(a0, 16, a1);
SET64(a0, 8, a3);
RUD_G0 = v4 + 80u;
return;
}
rud_trap();
}

static void in_core_dec2flt_big_Big_mul_add(RUD_IT u64 a0, u64 a1, u64 a2) {
u64 v3 = 0, v4 = 0, v5 = 0, v6 = 0, v7 = 0, j1 = 0;
RUD_HERE
v3 = RUD_G0 - 16u;
RUD_G0 = v3;
if ((s64)v3 >= (s64)16u) {
TEST(a0);
v5 = AT64(a0, 592);
if (!(v5 == 0)) {
v4 = a0;
v6 = v5;
L3:;
TEST(v4);
in_multi3(RUD_AS v3, AT64(v4, 0), 0u, a1);
TEST(v3);
j1 = a2;
a2 = AT64(v3, 0);
v7 = j1 + a2;
SET64(v4, 0, v7);
v4 = v4 + 8u;
a2 = AT64(v3, 8) + (u64)(u32)(a2 > v7);
v6 = v6 - 1u;
if (v6 != 0u) goto L3;
}
if (!(a2 == 0)) {
PUT64(a0 + (v5 << 3), 0, a2);
SET64(a0, 592, v5 + 1u);
}
RUD_G0 = v3 + 16u;
return;
}
rud_trap();
}

static void in_core_dec2flt_big_Big_times_ten_to(RUD_IT u64 a0, u64 a1) {
u64 v2 = 0;
RUD_HERE
v2 = RUD_G0;
if ((s64)v2 >= (s64)16u) {
if (a1 >= 20u) {
L3:;
in_core_dec2flt_big_Big_mul_add(RUD_AS a0, 0x8ac7230489e80000ull, 0u);
a1 = a1 - 19u;
if (a1 > 19u) goto L3;
}
in_core_dec2flt_big_Big_mul_add(RUD_AS a0, GET_FAR64(a1 << 3, 4194320), 0u);
RUD_G0 = v2;
return;
}
rud_trap();
}

static void in_core_dec2flt_big_Big_times_two_to(RUD_IT u64 a0, u64 a1) {
u64 v2 = 0;
RUD_NONE
v2 = RUD_G0;
if ((s64)v2 >= (s64)16u) {
if (a1 >= 64u) {
L3:;
in_core_dec2flt_big_Big_mul_add(RUD_AS a0, 0x8000000000000000ull, 0u);
a1 = a1 - 63u;
if (a1 > 63u) goto L3;
}
in_core_dec2flt_big_Big_mul_add(RUD_AS a0, 1ull << (a1 & 63), 0u);
RUD_G0 = v2;
return;
}
rud_trap();
}

static u64 in_core_dec2flt_decimal_break_tie_1d521972340cebc2(RUD_IT u64 a0, u32 a1, u64 a2, u64 a3, u64 a4, u64 a5) {
u64 v6 = 0, v7 = 0, v8 = 0, j0 = 0;
RUD_HERE
v6 = RUD_G0 - 1200u;
RUD_G0 = v6;
if ((s64)v6 >= (s64)16u) {
COPY_FEW(v6, a0, 600u);
in_core_dec2flt_big_Big_times_ten_to(RUD_AS v6, a2);
a0 = 1075ull - a5;
in_core_dec2flt_big_Big_times_two_to(RUD_AS v6, a0 > 1075u ? 0ull : a0);
v7 = v6 + 600u;
FILL_FEW(v7, 0u, 600u);
in_core_dec2flt_big_Big_mul_add(RUD_AS v7, 1u, (a4 << 1) | 1u);
in_core_dec2flt_big_Big_times_ten_to(RUD_AS v7, a3);
a0 = a5 - 1075u;
in_core_dec2flt_big_Big_times_two_to(RUD_AS v7, a0 > a5 ? 0ull : a0);
TEST_FAR(v6, 176);
a2 = AT64(v6, 1192);
a0 = AT64(v6, 592);
a0 = a0 < a2 ? a2 : a0;
a2 = a0 + 1u;
a0 = (a0 << 3) - 8u;
v8 = v6 + a0;
a3 = a0 + v7;
L5:;
a2 = a2 - 1u;
if (a2 == 0) goto L4;
TEST(v8);
v7 = AT64(v8, 0);
TEST(a3);
a0 = AT64(a3, 0);
if (v7 < a0) goto L2;
v8 = v8 - 8u;
a3 = a3 - 8u;
if (a0 >= v7) goto L5;
a0 = (a4 + (a5 << 52)) + 1u;
j0 = a0 < 9218868437227405312ull ? a0 : 9218868437227405312ull;
goto L1;
L4:;
if (a1) {
a0 = (a4 + (a5 << 52)) + 1u;
j0 = a0 < 9218868437227405312ull ? a0 : 9218868437227405312ull;
goto L1;
}
a0 = ((a4 & 1u) + a4) + (a5 << 52);
j0 = a0 < 9218868437227405312ull ? a0 : 9218868437227405312ull;
goto L1;
}
rud_trap();
return 0;
L2:;
a0 = (a5 << 52) + a4;
j0 = a0 < 9218868437227405312ull ? a0 : 9218868437227405312ull;
L1:;
RUD_G0 = v6 + 1200u;
return j0;
}

static void in_core_dec2flt_long_first_digits(RUD_IT u64 a0, u64 a1, u64 a2, u64 a3, u64 a4) {
u64 v5 = 0, v6 = 0, v7 = 0, v8 = 0, v9 = 0, v10 = 0, v11 = 0;
RUD_HERE
v6 = RUD_G0 - 608u;
RUD_G0 = v6;
if ((s64)v6 >= (s64)16u) {
v5 = v6 + 8u;
FILL_FEW(v5, 0u, 600u);
in_core_dec2flt_big_Big_mul_add(RUD_AS v5, 1u, 0u);
if (!(a4 == 0)) {
v10 = a3 - a2;
L3:;
a3 = a4 - v7;
v8 = a3 < 19u ? a3 : 19ull;
v11 = GET_FAR64(v8 << 3, 4194320);
v5 = v7;
v9 = v8;
a3 = 0u;
L4:;
a3 = (a3 * 10u) + ((u64)(GET8((a2 > v5 ? a1 : v10) + v5, 0) - 48u) & 255u);
v5 = v5 + 1u;
v9 = v9 - 1u;
if (v9 != 0u) goto L4;
in_core_dec2flt_big_Big_mul_add(RUD_AS v6 + 8u, v11, a3);
v7 = v7 + v8;
if (v7 < a4) goto L3;
}
COPY_FEW(a0, v6 + 8u, 600u);
RUD_G0 = v6 + 608u;
return;
}
rud_trap();
}

static void in_toml_parser_number_decimal_number(RUD_IT u64 a0, u64 a1, u64 a2, u32 a3) {
u32 v21 = 0, v22 = 0, v23 = 0, v24 = 0, i0 = 0, i2 = 0, i4 = 0;
u64 v4 = 0, v5 = 0, v6 = 0, v7 = 0, v8 = 0, v9 = 0, v10 = 0, v11 = 0, v12 = 0, v13 = 0, v14 = 0, v15 = 0;
u64 v16 = 0, v17 = 0, v18 = 0, v19 = 0, v20 = 0, j0 = 0, j1 = 0, j2 = 0, j3 = 0;
f64 v25 = 0;
RUD_HERE
v5 = RUD_G0 - 1328u;
RUD_G0 = v5;
if ((s64)v5 >= (s64)16u) {
TEST_FAR(v5, 304);
SET32(v5, 120, 0u);
SET64(v5, 112, 0u);
SET64(v5, 104, 0u);
SET64(v5, 80, 0u);
SET64(v5, 88, 0u);
SET32(v5, 96, 0u);
SET64(v5, 56, 0u);
SET64(v5, 64, 0u);
SET32(v5, 72, 0u);
if (a2 != 3u) goto L18;
TEST(a1);
if (AT8(a1, 0) != 105u) goto L19;
if (AT8(a1, 1) != 110u) goto L19;
if (AT8(a1, 2) != 102u) goto L19;
TEST(a0);
SET16(a0, 0, 0u);
SET64(a0, 24, 0u);
SETF(a0, 16, a3 ? rud_of_octets(0xfff0000000000000ull) : rud_of_octets(0x7ff0000000000000ull));
SET32(a0, 12, 0u);
SET16(a0, 8, 2u);
SET64(a0, 32, 0u);
SET32(a0, 40, 0u);
goto L1;
L19:;
if (AT8(a1, 0) != 110u) goto L18;
if (AT8(a1, 1) != 97u) goto L18;
if (AT8(a1, 2) != 110u) goto L18;
TEST(a0);
SET16(a0, 0, 0u);
SET64(a0, 24, 0u);
SET64(a0, 16, 9221120237041090560ull);
SET32(a0, 12, 0u);
SET16(a0, 8, 2u);
SET64(a0, 32, 0u);
SET32(a0, 40, 0u);
goto L1;
L18:;
if (a2 < 8u) goto L20;
v9 = a2;
j0 = a2 & 0xfffffffffffffff8ull;
L21:;
v4 = GET64(a1 + v10, 0);
v11 = v4 ^ 3472328296227680304ull;
if (((((v11 & 9187201950435737470ull) + 8536140394893047414ull) | v4) & 0x8080808080808080ull) != 0u) goto L20;
v4 = (v11 * 10u) + (v11 >> 8);
v8 = (v8 * 100000000u) + (((((v4 >> 16) & 1095216660735ull) * 42949672960001ull) + ((v4 & 1095216660735ull) * 4294967296000100ull)) >> 32);
v10 = v10 + 8u;
v9 = v9 - 8u;
if (v9 > 7u) goto L21;
v10 = j0;
L20:;
v11 = 4194313u;
if (a2 > v10) {
L26:;
v13 = a1 + v10;
TEST(v13);
v24 = AT8(v13, 0);
v21 = v24 - 48u;
if ((v21 & 255u) > 9u) goto L25;
v8 = (v8 * 10u) + ((u64)v21 & 255u);
v10 = v10 + 1u;
if (a2 != v10) goto L26;
v9 = 0u;
v10 = a2;
goto L12;
L25:;
if (v24 == 46u) goto L22;
if ((u32)(v24 == 69u) | (u32)(v24 == 101u)) goto L23;
}
j0 = 0u;
goto L15;
L23:;
v21 = 0u;
v4 = v10 + 1u;
v24 = v4 >= a2;
if (v24 == 0) {
v21 = AT8(v13, 1);
}
v6 = v10 + 2u;
v4 = v21 == 45u ? v6 : (v21 == 43u ? v6 : v4);
if ((u32)(v4 >= a2) | (u32)(v4 == 0)) goto L16;
if (((GET8(a1 + v4, 0) - 58u) & 255u) < 246u) goto L16;
v9 = 0u;
v6 = v4;
L29:;
v21 = GET8(a1 + v6, 0) - 48u;
if ((v21 & 255u) > 9u) goto L28;
v12 = (u64)v21 & 255u;
v7 = v12 + (v9 * 10u);
v9 = v9 < 1844674407370955162ull ? (v7 < v12 ? 18446744073709551615ull : v7) : 18446744073709551615ull;
v6 = v6 + 1u;
if (a2 != v6) goto L29;
v6 = a2;
L28:;
if (v24 == 0) {
v23 = AT8(v13, 1) == 45u;
}
v12 = v6 - v4;
v7 = 0u;
goto L13;
L22:;
v6 = v10 + 1u;
L32:;
if ((a2 - v6) >= 8u) {
v4 = GET64(a1 + v6, 0);
v11 = v4 ^ 3472328296227680304ull;
v4 = (((v11 & 9187201950435737470ull) + 8536140394893047414ull) | v4) & 0x8080808080808080ull;
if (v4 == 0) {
v4 = (v11 * 10u) + (v11 >> 8);
v7 = (((v4 >> 16) & 1095216660735ull) * 42949672960001ull) + ((v4 & 1095216660735ull) * 4294967296000100ull);
j0 = 8u;
goto L34;
}
j0 = v11;
v11 = rud_ctz64(v4);
v4 = (j0 << (((v11 ^ 0xffffffffffffffffull) & 56u) & 63)) * 2561u;
v7 = (((v4 >> 16) & 1095216660735ull) * 42949672960001ull) + ((v4 & 1095216660735ull) * 4294967296000100ull);
j0 = v11 >> 3;
L34:;
v4 = j0;
v8 = (GET_FAR64(v4 << 3, 4194320) * v8) + (v7 >> 32);
v6 = v4 + v6;
if (v4 >= 8u) goto L32;
goto L31;
}
if (((u32)(a2 > v6) & (u32)(a2 >= 12u)) == 0) {
if (a2 <= v6) goto L31;
L37:;
v21 = GET8(a1 + v6, 0) - 48u;
if ((v21 & 255u) > 9u) goto L31;
v8 = (v8 * 10u) + ((u64)v21 & 255u);
v6 = v6 + 1u;
if (a2 != v6) goto L37;
v7 = (v10 ^ 0xffffffffffffffffull) + a2;
v11 = v13 + 1u;
v22 = 1u;
v9 = 0u;
goto L12;
}
v4 = a2 - 8u;
v4 = GET64(a1 + v4, 0) >> (((v6 - v4) << 3) & 63);
v11 = v4 ^ 3472328296227680304ull;
v4 = (((v11 & 9187201950435737470ull) + 8536140394893047414ull) | v4) & 0x8080808080808080ull;
if (v4 == 0) {
v4 = (v11 * 10u) + (v11 >> 8);
v7 = (((v4 >> 16) & 1095216660735ull) * 42949672960001ull) + ((v4 & 1095216660735ull) * 4294967296000100ull);
j0 = 8u;
goto L38;
}
j0 = v11;
v11 = rud_ctz64(v4);
v4 = (j0 << (((v11 ^ 0xffffffffffffffffull) & 56u) & 63)) * 2561u;
v7 = (((v4 >> 16) & 1095216660735ull) * 42949672960001ull) + ((v4 & 1095216660735ull) * 4294967296000100ull);
j0 = v11 >> 3;
L38:;
v4 = j0;
v8 = (GET_FAR64(v4 << 3, 4194320) * v8) + (v7 >> 32);
v6 = v4 + v6;
L31:;
v7 = (v10 ^ 0xffffffffffffffffull) + v6;
v11 = v13 + 1u;
v22 = 1u;
if (a2 <= v6) goto L14;
if ((GET8(a1 + v6, 0) | 32u) != 101u) goto L14;
v21 = 0u;
v15 = v6 + 1u;
v24 = v15 >= a2;
if (v24 == 0) {
v21 = GET8(a1 + v15, 0);
}
v4 = v6 + 2u;
v4 = v21 == 45u ? v4 : (v21 == 43u ? v4 : v15);
if ((u32)(v4 >= a2) | (u32)(v4 == 0)) goto L14;
if (((GET8(a1 + v4, 0) - 58u) & 255u) < 246u) goto L14;
v9 = 0u;
v6 = v4;
L42:;
v21 = GET8(a1 + v6, 0) - 48u;
if ((v21 & 255u) > 9u) goto L41;
v13 = (u64)v21 & 255u;
v12 = v13 + (v9 * 10u);
v9 = v9 < 1844674407370955162ull ? (v12 < v13 ? 18446744073709551615ull : v12) : 18446744073709551615ull;
v6 = v6 + 1u;
if (a2 != v6) goto L42;
v6 = a2;
L41:;
if (v24 == 0) {
v23 = GET8(a1 + v15, 0) == 45u;
}
v12 = v6 - v4;
goto L13;
}
rud_trap();
L16:;
j0 = 0u;
L15:;
v7 = j0;
v6 = v10;
L14:;
v9 = 0u;
L13:;
if (a2 != v6) goto L11;
L12:;
if (v10 <= 1u) {
if ((u32)v10 - 1u) goto L11;
goto L44;
}
TEST(a1);
if (AT8(a1, 0) == 48u) goto L11;
L44:;
if (v22 == 0) goto L10;
if (v7 != 0u) goto L9;
L11:;
TEST(a0);
SET16(a0, 0, 3073u);
SET64(a0, 12, 0u);
SET16(a0, 8, 0u);
SET64(a0, 20, 0u);
SET64(a0, 28, 0u);
SET64(a0, 36, 0u);
goto L1;
L10:;
if (v12 == 0) goto L8;
L9:;
a2 = v23 ? v9 : 0ull;
v4 = v23 ? 0ull : v9;
if (((u32)(v9 < 4294967296ull) & (u32)((v7 + v10) <= 19u)) == 0) {
v9 = a1;
v6 = v7;
a1 = 0u;
v14 = RUD_G0 - 1216u;
RUD_G0 = v14;
if ((s64)v14 >= (s64)16u) {
v7 = v6 + v10;
if (v7 == 0) goto L50;
v12 = v11 - v10;
L51:;
if (GET8((a1 < v10 ? v9 : v12) + a1, 0) != 48u) goto L50;
a1 = a1 + 1u;
if (v7 != a1) goto L51;
goto L49;
L50:;
if (a1 == v7) goto L49;
v15 = v7 - a1;
v18 = v15 < 19u ? v15 : 19ull;
v12 = v4 + (v15 - v18);
v13 = v12 + 342u;
v17 = a2 + v6;
v21 = v13 < v17;
v12 = (u64)(u32)(v4 > v12) + (u64)(u32)(v12 > v13);
v20 = (u64)(u32)(a2 > v17);
if (v12 == v20 ? v21 : (u32)(v12 < v20)) goto L49;
v16 = v13 - v17;
a2 = (v12 - v20) - (u64)v21;
if (a2 == 0 ? (u32)(v16 > 650u) : (u32)(a2 != 0u)) {
v16 = 9218868437227405312ull;
goto L49;
}
a2 = v11 - v10;
L53:;
v19 = (v19 * 10u) + ((u64)(GET8((a1 < v10 ? v9 : a2) + a1, 0) - 48u) & 255u);
a1 = a1 + 1u;
v18 = v18 - 1u;
if (v18 != 0u) goto L53;
TEST_FAR(v14, 192);
SET64(v14, 632, 0u);
SET64(v14, 624, 0u);
SET64(v14, 616, 0u);
a1 = rud_clz64(v19);
in_multi3(RUD_AS v14, GET_FAR64(v16 << 4, 4194488), 0u, v19 << (a1 & 63));
v8 = (u64)(u32)(v15 > 19u);
v15 = AT64(v14, 8);
v18 = v15 >> 63;
v13 = (v18 + (((v16 * 217706u) + 58980u) >> 16)) + 1139u;
v12 = a1 + 1191u;
if (v13 < v12) goto L54;
a2 = 512ull << (v18 & 63);
j0 = (v8 << (a1 & 63)) + 2u;
a1 = ((18446744073709550592ull << (v18 & 63)) ^ 0xffffffffffffffffull) & v15;
if (j0 > (a2 - a1)) goto L54;
a1 = (u64)(u32)(a1 > a2) + (((v13 - v12) << 52) + (v15 >> ((v18 | 10u) & 63)));
v16 = a1 < 9218868437227405312ull ? a1 : 9218868437227405312ull;
goto L49;
L54:;
in_core_dec2flt_lemire_eisel_lemire_wide_1d521972340cebc2(RUD_AS v14 + 616u, v19, v8, v16);
v16 = AT64(v14, 624);
if (AT8(v14, 616) == 0) goto L49;
v8 = AT64(v14, 632);
v21 = 0u;
FILL_FEW(v14 + 616u, 0u, 600u);
FILL_FEW(v14 + 16u, 0u, 600u);
a1 = 1075ull - v8;
v12 = a1 > 1075u ? 0ull : a1;
v15 = v12 + v4;
a2 = (u64)(u32)(v12 > v15);
if ((a2 == v20 ? (u32)(v17 > v15) : (u32)(v20 > a2)) == 0) {
a1 = v14 + 616u;
in_core_dec2flt_long_first_digits(RUD_AS a1, v9, v10, v11, v7);
j0 = a1;
a1 = v4 - v17;
j3 = a1;
i4 = a1 > v4;
a1 = 0ull - (v20 + (u64)(u32)(v4 < v17));
j2 = (a1 == 0 ? i4 : (u32)(a1 != 0u)) ? 0ull : j3;
a1 = v17 - v4;
v16 = in_core_dec2flt_decimal_break_tie_1d521972340cebc2(RUD_AS j0, 0u, j2, (v4 <= v17 ? (u32)(a1 > v17) : (u32)((v20 - (u64)(u32)(v4 > v17)) > v20)) ? 0ull : a1, v16, v8);
goto L49;
}
v13 = v17 - v15;
a1 = v7 - v13;
v4 = (v20 - a2) - (u64)(u32)(v15 > v17);
j1 = a1;
i2 = a1 > v7;
a1 = 0ull - (v4 + (u64)(u32)(v7 < v13));
a2 = (a1 == 0 ? i2 : (u32)(a1 != 0u)) ? 0ull : j1;
if (a2 < v7) {
v18 = (u32)(v4 == 0) & (u32)(v7 > v13) ? v13 : v7;
v19 = v11 + (v6 - v18);
a1 = a2;
L58:;
if (GET8(a1 < v10 ? (a1 + v9) : v19, 0) != 48u) goto L57;
v19 = v19 + 1u;
a1 = a1 + 1u;
v18 = v18 - 1u;
if (v18 != 0u) goto L58;
a1 = v7;
L57:;
v21 = a1 < v7;
}
a1 = v14 + 16u;
in_core_dec2flt_long_first_digits(RUD_AS a1, v9, v10, v11, a2);
v16 = in_core_dec2flt_decimal_break_tie_1d521972340cebc2(RUD_AS a1, v21, 0u, v12, v16, v8);
L49:;
RUD_G0 = v14 + 1216u;
j0 = v16;
goto L47;
}
rud_trap();
L47:;
v25 = rud_of_octets(j0);
goto L3;
}
if (v8 == 0) goto L3;
a1 = a2 + v7;
if (v4 >= a1) {
v7 = v4 - a1;
if (((u32)(v8 > 9007199254740992ull) | (u32)(v7 > 22u)) == 0) {
v25 = (f64)v8 * GET_FARF(v7 << 3, 4205168);
goto L3;
}
v25 = rud_of_octets(0x7ff0000000000000ull);
if (v7 > 308u) goto L3;
SET64(v5, 744, 0u);
SET64(v5, 736, 0u);
SET64(v5, 728, 0u);
v4 = v7 + 342u;
v6 = rud_clz64(v8);
in_multi3(RUD_AS v5 + 16u, GET_FAR64(v4 << 4, 4194488), 0u, v8 << (v6 & 63));
v10 = AT64(v5, 24);
v11 = v10 >> 63;
a2 = 512ull << (v11 & 63);
a1 = ((18446744073709550592ull << (v11 & 63)) ^ 0xffffffffffffffffull) & v10;
if ((a2 - a1) > 1u) goto L7;
in_core_dec2flt_lemire_eisel_lemire_wide_1d521972340cebc2(RUD_AS v5 + 728u, v8, 0u, v4);
v9 = AT64(v5, 736);
if (AT8(v5, 728) == 0) goto L4;
a2 = AT64(v5, 744);
v6 = v5 + 728u;
FILL_FEW(v6, 0u, 600u);
in_core_dec2flt_big_Big_mul_add(RUD_AS v6, 1u, v8);
a1 = v5 + 128u;
COPY_FEW(a1, v6, 600u);
v9 = in_core_dec2flt_decimal_break_tie_1d521972340cebc2(RUD_AS a1, 0u, v7, 0u, v9, a2);
goto L4;
}
v7 = a1 - v4;
if (((u32)(v8 > 9007199254740992ull) | (u32)(v7 > 22u)) == 0) {
v25 = (f64)v8 / GET_FARF(v7 << 3, 4205168);
goto L3;
}
if (v7 > 342u) goto L3;
SET64(v5, 744, 0u);
SET64(v5, 736, 0u);
SET64(v5, 728, 0u);
v11 = 342ull - v7;
a1 = rud_clz64(v8);
in_multi3(RUD_AS v5, GET_FAR64(v11 << 4, 4194488), 0u, v8 << (a1 & 63));
v4 = AT64(v5, 8);
v9 = v4 >> 63;
v10 = (v9 + (((v11 * 217706u) + 58980u) >> 16)) + 1139u;
v6 = a1 + 1191u;
if (v10 < v6) goto L63;
a2 = 512ull << (v9 & 63);
a1 = ((18446744073709550592ull << (v9 & 63)) ^ 0xffffffffffffffffull) & v4;
if ((a2 - a1) < 2u) goto L63;
j0 = (u64)(u32)(a1 > a2) + (((v10 - v6) << 52) + (v4 >> ((v9 | 10u) & 63)));
goto L62;
L63:;
in_core_dec2flt_lemire_eisel_lemire_wide_1d521972340cebc2(RUD_AS v5 + 728u, v8, 0u, v11);
v6 = AT64(v5, 736);
if (AT8(v5, 728) == 0) { j0 = v6; goto L62; }
a2 = AT64(v5, 744);
v10 = v5 + 728u;
FILL_FEW(v10, 0u, 600u);
in_core_dec2flt_big_Big_mul_add(RUD_AS v10, 1u, v8);
a1 = v5 + 128u;
COPY_FEW(a1, v10, 600u);
j0 = in_core_dec2flt_decimal_break_tie_1d521972340cebc2(RUD_AS a1, 0u, 0u, v7, v6, a2);
L62:;
v25 = rud_of_octets(j0);
goto L3;
L8:;
v7 = v7 + v10;
if (v7 >= 20u) {
v4 = v11 - v10;
a2 = 0u;
v6 = 0u;
v9 = 0u;
L65:;
in_multi3(RUD_AS v5 + 32u, a2, v6, 10u);
v6 = AT64(v5, 32);
a2 = v6 + ((u64)(GET8((v9 < v10 ? a1 : v4) + v9, 0) - 48u) & 255u);
v11 = AT64(v5, 40) + (u64)(u32)(a2 < v6);
v21 = v11 == 0;
v6 = v21 ? v11 : 1ull;
a2 = v21 ? a2 : 0ull;
v9 = v9 + 1u;
if (v7 != v9) goto L65;
if (v11 != 0u) goto L6;
}
if (a3 == 0) {
if ((s64)v8 >= (s64)0u) goto L66;
v8 = 0u;
v21 = 14u;
v22 = 0u;
i0 = 1u;
goto L5;
}
if (v8 == 0) {
v8 = 0u;
goto L66;
}
if (v8 > 0x8000000000000000ull) goto L6;
v8 = 0ull - v8;
L66:;
v22 = 1u;
v21 = 0u;
i0 = 0u;
goto L5;
L7:;
a1 = ((u64)(u32)(a1 > a2) + (((((((v4 * 217706u) + 58980u) >> 16) - v6) + v11) << 52) + (v10 >> ((v11 | 10u) & 63)))) - 234187180623265792ull;
v9 = a1 < 9218868437227405312ull ? a1 : 9218868437227405312ull;
goto L4;
L6:;
v21 = 14u;
v22 = 0u;
v8 = 0u;
i0 = 1u;
L5:;
v23 = i0;
SET32(v5, 120, AT32(v5, 72));
SET64(v5, 112, AT64(v5, 64));
SET64(v5, 104, AT64(v5, 56));
goto L2;
L4:;
v25 = rud_of_octets(v9);
L3:;
v25 = a3 ? rud_neg(v25) : v25;
if ((v25 - v25) != rud_of_octets(0x0ull)) {
v22 = 0u;
v21 = 14u;
v23 = 1u;
j0 = 0u;
goto L69;
}
v23 = 0u;
SET32(v5, 96, 0u);
SET64(v5, 88, 0u);
SET64(v5, 80, 0u);
v22 = 2u;
v21 = 0u;
j0 = rud_octets_of(v25);
L69:;
v8 = j0;
SET32(v5, 120, AT32(v5, 96));
SET64(v5, 112, AT64(v5, 88));
SET64(v5, 104, AT64(v5, 80));
L2:;
TEST(a0);
SET8(a0, 0, v23);
SET64(a0, 16, v8);
SET32(a0, 12, 0u);
SET8(a0, 9, 0u);
SET8(a0, 8, v22);
SET8(a0, 1, v21);
SET64(a0, 24, AT64(v5, 104));
SET64(a0, 32, AT64(v5, 112));
SET32(a0, 40, AT32(v5, 120));
L1:;
RUD_G0 = v5 + 1328u;
}

static void in_toml_parser_number_plain_number(RUD_IT u64 a0, u64 a1, u64 a2) {
u32 v5 = 0, v6 = 0, v7 = 0, i0 = 0;
u64 v3 = 0, v4 = 0;
RUD_HERE
v3 = RUD_G0 - 112u;
RUD_G0 = v3;
if ((s64)v3 >= (s64)16u) {
FILL_FEW(v3 + 16u, 0u, 48u);
i0 = in_toml_parser_number_radix_of(RUD_AS a1, a2);
v5 = i0;
if (v5 != 10u) {
TEST(v3);
SET32(v3, 104, 0u);
SET64(v3, 96, 0u);
SET64(v3, 88, 0u);
a2 = a2 - 2u;
if (a2 == 0) {
v5 = 0u;
SET32(v3, 80, 0u);
SET64(v3, 72, 0u);
SET64(v3, 64, 0u);
v7 = 1u;
v6 = 12u;
goto L4;
}
in_toml_parser_number_digits_value(RUD_AS v3, a1 + 2u, a2, v5);
v7 = 1u;
v6 = 12u;
v5 = AT8(v3, 0);
if (v5 == 1u) {
v4 = AT64(v3, 8);
v7 = 0u;
SET32(v3, 104, 0u);
SET64(v3, 96, 0u);
SET64(v3, 88, 0u);
v6 = 0u;
}
SET32(v3, 80, AT32(v3, 104));
SET64(v3, 72, AT64(v3, 96));
SET64(v3, 64, AT64(v3, 88));
L4:;
TEST(a0);
SET8(a0, 0, v7);
SET64(a0, 16, v4);
SET32(a0, 12, 0u);
SET8(a0, 9, 0u);
SET8(a0, 8, v5);
SET8(a0, 1, v6);
SET64(a0, 24, AT64(v3, 64));
SET64(a0, 32, AT64(v3, 72));
SET32(a0, 40, AT32(v3, 80));
goto L1;
}
if (a2 == 0) goto L8;
TEST(a1);
switch (AT8(a1, 0) - 43u) {
case 0u: goto L9;
default: goto L8;
case 2u: goto L10;
}
L10:;
in_toml_parser_number_decimal_number(RUD_AS v3 + 16u, a1 + 1u, a2 - 1u, 1u);
goto L7;
L9:;
in_toml_parser_number_decimal_number(RUD_AS v3 + 16u, a1 + 1u, a2 - 1u, 0u);
goto L7;
L8:;
in_toml_parser_number_decimal_number(RUD_AS v3 + 16u, a1, a2, 0u);
L7:;
TEST(v3);
TEST(a0);
SET16(a0, 0, AT16(v3, 16));
SET64(a0, 16, AT64(v3, 32));
SET32(a0, 12, AT32(v3, 28));
SET16(a0, 8, AT16(v3, 24));
SET64(a0, 24, AT64(v3, 40));
SET64(a0, 32, AT64(v3, 48));
SET32(a0, 40, AT32(v3, 56));
goto L1;
}
rud_trap();
L1:;
RUD_G0 = v3 + 112u;
}

static void in_toml_de_value_after_element(RUD_IT u64 a0, u64 a1, u64 a2, u32 a3, u32 a4) {
u32 v7 = 0;
u64 v5 = 0, v6 = 0, j0 = 0, j1 = 0;
RUD_HERE
v5 = RUD_G0 - 16u;
RUD_G0 = v5;
if ((s64)v5 >= (s64)16u) {
in_toml_parser_text_skip_blank(RUD_AS v5, a1, a2, 1u);
j0 = a0;
TEST(v5);
a2 = AT64(v5, 8);
if (a2 == 0) goto L3;
a1 = AT64(v5, 0);
TEST(a1);
v7 = AT8(a1, 0);
if (v7 == 44u) {
a2 = a2 - 1u;
a1 = a1 + 1u;
j1 = 0u;
goto L2;
}
if (v7 != (a3 & 255u)) goto L3;
j1 = 0u;
goto L2;
L3:;
a1 = (((u64)a4 & 255u) << 8) | 1u;
v6 = a2;
j1 = 1u;
L2:;
TEST(j0);
SET64(j0, 0, j1);
TEST(a0);
SET64(a0, 24, v6);
SET64(a0, 16, a2);
SET64(a0, 8, a1);
RUD_G0 = v5 + 16u;
return;
}
rud_trap();
}

static u64 in_std_collections_btree_map_BTreeMap_value_mut_at_8494fc2367ed18cf(RUD_IT u64 a0, u64 a1) {
u64 v2 = 0;
RUD_HERE
if ((s64)RUD_G0 < (s64)16u) goto L2;
TEST(a0);
if (AT8(a0, 0) != 1u) goto L2;
TEST(a1);
v2 = AT64(a1, 0) & 15u;
a0 = GET64((AT64(a1, 16) - AT64(a1, 8)) == 1u ? (a0 + 8u) : ((AT64(a1, 24) + (AT64(a1, 32) << 3)) + 1208u), 0);
TEST(a0);
if (v2 < (u64)AT16(a0, 0)) goto L1;
L2:;
rud_trap();
return 0;
L1:;
return (a0 + (v2 * 56u)) + 368u;
}

static void in_std_collections_btree_map_BTreeMap_get_mut_73c392a72f38babf(RUD_IT u64 a0, u64 a1, u64 a2, u64 a3) {
u32 v16 = 0, v17 = 0, i1 = 0;
u64 v4 = 0, v5 = 0, v6 = 0, v7 = 0, v8 = 0, v9 = 0, v10 = 0, v11 = 0, v12 = 0, v13 = 0, v14 = 0, v15 = 0;
u64 j0 = 0, j1 = 0;
RUD_HERE
v4 = RUD_G0 - 80u;
RUD_G0 = v4;
j0 = a0;
if ((s64)v4 >= (s64)16u) {
TEST(a1);
if (AT8(a1, 0) != 1u) goto L2;
v5 = AT64(a1, 8);
v11 = v5;
TEST(v5);
v13 = 15ull - (u64)AT16(v5, 2);
v8 = v13;
L4:;
v6 = 0u;
v7 = v5;
TEST(v7);
v12 = (u64)AT16(v7, 0);
if (v12 == 0) goto L6;
v5 = v7 + 16u;
L7:;
v14 = GET64(v5 - 8u, 0);
TEST(v5);
v15 = AT64(v5, 0);
TEST(v4);
SET64(v4, 72, a3);
SET64(v4, 64, a2);
SET64(v4, 56, v15);
SET64(v4, 48, v14);
i1 = in_core_cmp_text_RefStrOrd_cmp(RUD_AS v4 + 64u, v4 + 48u);
v17 = i1 & 255u;
if (v17 != 2u) {
if (v17 - 1u) goto L6;
goto L5;
}
v5 = v5 + 24u;
v6 = v6 + 1u;
if (v12 != v6) goto L7;
v6 = v12;
L6:;
if (AT16(v7, 2) == 0) goto L2;
v8 = v8 + 1u;
v9 = v6 + (v9 << 4);
v5 = GET64((v7 + (v6 << 3)) + 1208u, 0);
v11 = v7;
v10 = v6;
goto L4;
L5:;
SET32(v4, 41, 0u);
v16 = 1u;
SET8(v4, 40, 1u);
SET64(v4, 32, v10);
SET64(v4, 24, v11);
SET64(v4, 8, v13);
SET32(v4, 44, 0u);
SET64(v4, 16, v8 + 1u);
SET64(v4, 0, (v9 << 4) + v6);
j1 = in_std_collections_btree_map_BTreeMap_value_mut_at_8494fc2367ed18cf(RUD_AS a1, v4);
goto L1;
}
rud_trap();
L2:;
j1 = 0u;
L1:;
TEST(j0);
SET64(j0, 8, j1);
TEST(a0);
SET8(a0, 0, v16);
RUD_G0 = v4 + 80u;
}

static void in_std_collections_btree_node_parts_Parts_new_d4294551460d727f(RUD_IT u64 a0, u64 a1) {
RUD_NONE
in_byn_mgfn_shared_std_collections_btree_node_parts_Parts_new_3401b(RUD_AS a0, a1, 1208u, 1336u);
}

static void in_std_alloc_vec_lodged_Vec_T_Lodged_insert_reserved_22_toml_de_tab(RUD_IT u64 a0, u64 a1, u64 a2) {
u32 v12 = 0, v13 = 0;
u64 v3 = 0, v4 = 0, v5 = 0, v6 = 0, v7 = 0, v8 = 0, v9 = 0, v10 = 0, v11 = 0, j0 = 0;
RUD_HERE
v7 = RUD_G0 - 48u;
RUD_G0 = v7;
if ((s64)v7 >= (s64)16u) {
TEST(a2);
v8 = AT64(a2, 48);
v12 = AT8(a2, 1);
v13 = AT8(a2, 0);
v9 = v7 + 8u;
COPY_FEW(v9, a2 + 8u, 40u);
a2 = a0 + 8u;
TEST(a2);
v3 = AT64(a2, 0);
SET64(a2, 0, 0u);
a2 = a0 + 16u;
TEST(a2);
v10 = AT64(a2, 0);
SET64(a2, 0, 0u);
TEST(a0);
v4 = AT64(a0, 0);
a2 = a1 + 1u;
if (a2 == 0) {
v5 = v3 + 1u;
if (v5 < 37u) goto L3;
a2 = v4;
L6:;
v3 = a2 - 56u;
if (v6 == 0) {
in_core_slots_raw_move_down_22_toml_de_tables_Node(RUD_AS v3, a2, 36u);
goto L7;
}
in_core_slots_raw_move_up_22_toml_de_tables_Node(RUD_AS v3, a2, 36u);
L7:;
a2 = a2 + 2016u;
v6 = v6 - 36u;
v3 = v5 + v6;
if (v3 > 36u) goto L6;
v11 = a2 - 56u;
if (v6 == 0) { j0 = v11; goto L2; }
in_core_slots_raw_move_up_22_toml_de_tables_Node(RUD_AS v11, a2, v3);
goto L1;
}
in_core_slots_raw_move_up_22_toml_de_tables_Node(RUD_AS v4 + (a1 * 56u), v4 + (a2 * 56u), v3 - a1);
v5 = v3 + 1u;
goto L1;
}
rud_trap();
L3:;
v3 = v5;
a2 = v4 + (a2 * 56u);
j0 = a2 - 56u;
L2:;
in_core_slots_raw_move_down_22_toml_de_tables_Node(RUD_AS j0, a2, v3);
L1:;
a1 = v4 + (a1 * 56u);
TEST(a1);
SET8(a1, 0, v13);
SET8(a1, 1, v12);
COPY_FEW(a1 + 8u, v9, 40u);
SET64(a1, 48, v8);
SET64(a0, 16, v10);
SET64(a0, 8, v5);
SET64(a0, 0, v4);
RUD_G0 = v7 + 48u;
}

static u32 in_toml_de_tables_insert(RUD_IT u64 a0, u64 a1, u64 a2) {
u32 v30 = 0, v31 = 0, v32 = 0, v33 = 0, v34 = 0, v35 = 0, v36 = 0, v37 = 0, i0 = 0;
u64 v3 = 0, v4 = 0, v5 = 0, v6 = 0, v7 = 0, v8 = 0, v9 = 0, v10 = 0, v11 = 0, v12 = 0, v13 = 0, v14 = 0;
u64 v15 = 0, v16 = 0, v17 = 0, v18 = 0, v19 = 0, v20 = 0, v21 = 0, v22 = 0, v23 = 0, v24 = 0, v25 = 0, v26 = 0;
u64 v27 = 0, v28 = 0, v29 = 0, j0 = 0, j1 = 0;
RUD_HERE
v3 = RUD_G0 - 880u;
RUD_G0 = v3;
if ((s64)v3 < (s64)16u) goto L1;
TEST(a2);
v14 = AT64(a2, 48);
v15 = AT64(a2, 40);
v16 = AT64(a2, 32);
v32 = AT32(a2, 28);
v33 = AT32(a2, 24);
v17 = AT64(a2, 16);
v18 = AT64(a2, 8);
v34 = AT8(a2, 1);
v35 = AT8(a2, 0);
TEST(v3);
SET64(v3, 64, 0u);
SET64(v3, 56, 0u);
SET64(v3, 48, 0u);
SET64(v3, 24, 0u);
SET64(v3, 32, 0u);
SET64(v3, 40, 0u);
TEST(a1);
SET64(v3, 136, AT64(a1, 16));
SET64(v3, 128, AT64(a1, 8));
SET64(v3, 120, AT64(a1, 0));
FILL_FEW(v3 + 72u, 0u, 48u);
TEST(a0);
if (AT8(a0, 0) == 1u) {
v5 = AT64(a0, 8);
goto L6;
}
in_std_heap_GlobalAllocator_allocate(RUD_AS v3 + 8u, 1208u, 8u);
RUD_AGAIN
if (AT8(v3, 8)) goto L5;
v5 = AT64(v3, 16);
TEST(v5);
SET32(v5, 0, 0u);
SET64(a0, 8, v5);
i0 = AT8(a0, 0);
SET64(a0, 0, 1u);
if (i0 == 1u) goto L1;
L6:;
v12 = a0 + 8u;
a2 = v5;
v4 = a2;
TEST(a2);
v30 = AT16(a2, 2);
v7 = (u64)v30 & 65535u;
v10 = 15ull - v7;
v11 = v10;
L8:;
SET64(v3, 160, v3 + 120u);
a1 = 0u;
v6 = a2;
TEST(v6);
v13 = (u64)AT16(v6, 0);
if (v13 == 0) goto L9;
a2 = v6 + 8u;
L10:;
i0 = in_std_collections_btree_map_queries_QueryTarget_order_222056d77792(RUD_AS v3 + 160u, a2);
v31 = i0 & 255u;
if (v31 != 2u) {
if (v31 - 1u) goto L9;
goto L4;
}
a2 = a2 + 24u;
a1 = a1 + 1u;
if (v13 != a1) goto L10;
a1 = v13;
L9:;
v11 = v11 + 1u;
v9 = a1 + (v9 << 4);
if (AT16(v6, 2)) {
a2 = GET64((v6 + (a1 << 3)) + 1208u, 0);
v8 = a1;
v4 = v6;
goto L8;
}
if (AT64(a0, 16) > 9223372036854775806ull) goto L5;
if (GET16(GET64((v11 - v10) == 1u ? v12 : ((v4 + (v8 << 3)) + 1208u), 0), 0) >= 15u) {
FILL_FEW(v3 + 160u, 0u, 88u);
TEST(v5);
if (AT16(v5, 0) >= 15u) {
if (v30 > 10u) goto L5;
in_std_collections_btree_node_parts_Parts_new_d4294551460d727f(RUD_AS v3 + 160u, (u64)(v30 + 1u) & 65535u);
RUD_AGAIN
if (AT8(v3, 160)) goto L5;
a2 = AT64(a0, 8);
v5 = AT64(v3, 240);
a1 = AT64(v3, 216);
v6 = AT64(v3, 176);
v10 = AT64(v3, 224);
if (v10 == 0) goto L17;
v10 = v10 << 3;
if (v10 == 0) goto L17;
COPY(a1 + 8u, a1, v10);
L17:;
TEST(a1);
SET64(a1, 0, a2);
TEST(v5);
SET16(v5, 0, (u32)v6);
SET64(a0, 8, v5);
v10 = 14ull - v7;
}
SET64(v3, 144, 0u);
SET64(v3, 152, 0u);
if (v10 < v11) {
a2 = v11;
L19:;
a2 = a2 - 1u;
PUT8(a2 + (v3 + 144u), 0, (u32)v9 & 15u);
v9 = v9 >> 4;
if (a2 > v10) goto L19;
}
a2 = 16ull - v10;
if (a2 >= 2u) {
v21 = v3 + 680u;
v22 = v3 + 256u;
v23 = v3 + 552u;
v9 = v3 + 840u;
v24 = v3 + 760u;
v20 = v3 + 758u;
v25 = v3 + 696u;
v26 = v3 + 344u;
v27 = v3 + 168u;
v5 = (v3 + 144u) + v10;
v6 = v12;
L21:;
v13 = a2;
TEST(v6);
v4 = AT64(v6, 0);
TEST(v5);
v30 = AT8(v5, 0);
v8 = (u64)v30 & 255u;
v7 = v8 << 3;
if (GET16(GET64((v4 + v7) + 1208u, 0), 0) < 15u) goto L22;
a1 = v3 + 160u;
FILL_FEW(a1, 0u, 88u);
TEST(v4);
in_std_collections_btree_node_parts_Parts_new_d4294551460d727f(RUD_AS a1, (u64)AT16(v4, 2) - 1u);
RUD_AGAIN
if (AT8(v3, 160)) goto L14;
a1 = AT64(v6, 0);
v4 = v3 + 592u;
COPY_FEW(v4, v27, 80u);
SET64(v3, 296, 0u);
SET64(v3, 304, 0u);
SET64(v3, 312, 0u);
FILL_FEW(v3 + 250u, 0u, 46u);
SET64(v3, 392, a1);
SET64(v3, 360, 15u);
SET64(v3, 344, a1 + 368u);
SET64(v3, 336, 15u);
SET64(v3, 320, a1 + 8u);
TEST(a1);
a2 = (u64)AT16(a1, 0);
SET64(v3, 352, a2);
SET64(v3, 328, a2);
v31 = AT16(a1, 2);
SET64(v3, 384, v31 ? 16ull : 0ull);
SET64(v3, 376, v31 ? (a2 + 1u) : 0ull);
a1 = a1 + 1208u;
SET64(v3, 368, a1);
SET64(v3, 448, 0u);
SET64(v3, 456, 0u);
SET64(v3, 464, 0u);
FILL_FEW(v3 + 402u, 0u, 46u);
v28 = a1 + v7;
TEST(v28);
a1 = AT64(v28, 0);
SET64(v3, 520, 0u);
SET64(v3, 528, 0u);
SET64(v3, 536, 0u);
FILL_FEW(v3 + 474u, 0u, 46u);
FILL_FEW(v3 + 546u, 0u, 46u);
SET64(v3, 744, a1);
SET64(v3, 720, a1 + 1208u);
SET64(v3, 712, 15u);
SET64(v3, 696, a1 + 368u);
SET64(v3, 688, 15u);
SET64(v3, 672, a1 + 8u);
TEST(a1);
a2 = (u64)AT16(a1, 0);
SET64(v3, 704, a2);
SET64(v3, 680, a2);
v31 = AT16(a1, 2);
SET64(v3, 736, v31 ? 16ull : 0ull);
SET64(v3, 728, v31 ? (a2 + 1u) : 0ull);
in_std_alloc_vec_lodged_Vec_T_Lodged_append_tail_483ec8513fd57e54(RUD_AS v4, v3 + 672u);
v7 = AT64(v3, 704) - 8u;
a1 = v7 * 56u;
v4 = AT64(v3, 616) + (AT64(v3, 624) * 56u);
v19 = AT64(v3, 696);
a2 = v19 + 448u;
if (a1 > (v4 - a2)) {
if (v7 == 0) goto L23;
a2 = 0u;
L25:;
a1 = a2 + v19;
TEST(a1);
v36 = AT16(a1, 448);
COPY_FEW(v20, a1 + 456u, 40u);
v29 = AT64(a1, 496);
a1 = a2 + v4;
TEST(a1);
SET16(a1, 0, v36);
COPY_FEW(a1 + 8u, v20, 40u);
SET64(a1, 48, v29);
a2 = a2 + 56u;
v7 = v7 - 1u;
if (v7 != 0u) goto L25;
goto L23;
}
if (a1 == 0) goto L23;
COPY(v4, a2, a1);
L23:;
SET64(v3, 704, 8u);
SET64(v3, 808, 0u);
SET64(v3, 816, 0u);
SET64(v3, 824, 0u);
a1 = v3 + 752u;
FILL_FEW(a1, 0u, 56u);
in_std_alloc_vec_Vec_remove_992c4ce9cbd9eb37(RUD_AS v3 + 808u, v3 + 672u, 7u);
in_std_alloc_vec_Vec_remove_ead69053adb5db67(RUD_AS a1, v25, 7u);
v19 = AT64(v3, 800);
v36 = AT8(v3, 753);
v37 = AT8(v3, 752);
COPY_FEW(v9, v24, 40u);
if (v31 == 0) goto L26;
v7 = AT64(v3, 728) - 8u;
v4 = v7 << 3;
a2 = AT64(v3, 640) + (AT64(v3, 648) << 3);
a1 = AT64(v3, 720) + 64u;
if (v4 > (a2 - a1)) {
if (v7 == 0) goto L26;
L28:;
TEST(a1);
TEST(a2);
SET64(a2, 0, AT64(a1, 0));
a2 = a2 + 8u;
a1 = a1 + 8u;
v7 = v7 - 1u;
if (v7 != 0u) goto L28;
goto L26;
}
if (v4 == 0) goto L26;
COPY(a2, a1, v4);
L26:;
a1 = AT64(v3, 744);
TEST(a1);
SET16(a1, 0, (u32)AT64(v3, 680));
v7 = AT64(v3, 664);
TEST(v7);
SET16(v7, 0, (u32)AT64(v3, 600));
COPY_FEW(v23, v9, 40u);
SET64(v3, 536, AT64(v3, 824));
SET64(v3, 528, AT64(v3, 816));
SET64(v3, 520, AT64(v3, 808));
a2 = v3 + 474u;
COPY_FEW(a2, v3 + 546u, 46u);
SET64(v3, 448, AT64(v3, 520));
SET64(v3, 456, AT64(v3, 528));
SET64(v3, 464, AT64(v3, 536));
v4 = v3 + 402u;
COPY_FEW(v4, a2, 46u);
SET64(v28, 0, a1);
SET64(v3, 296, AT64(v3, 448));
SET64(v3, 304, AT64(v3, 456));
SET64(v3, 312, AT64(v3, 464));
COPY_FEW(v3 + 250u, v4, 46u);
SET64(v3, 672, 0u);
in_std_alloc_vec_lodged_Vec_T_Lodged_insert_reserved_483ec8513fd57e(RUD_AS v3 + 320u, v8, v3 + 296u);
SET8(v3, 673, v36);
SET8(v3, 672, v37);
COPY_FEW(v21, v22, 40u);
SET64(v3, 720, v19);
in_std_alloc_vec_lodged_Vec_T_Lodged_insert_reserved_22_toml_de_tab(RUD_AS v26, v8, v3 + 672u);
a1 = v8 + 1u;
a2 = a1 << 3;
v4 = AT64(v3, 368);
v8 = AT64(v3, 376);
if (v8 == a1) goto L29;
a1 = (v8 - a1) << 3;
if (a1 == 0) goto L29;
v8 = a2 + v4;
COPY(v8 + 8u, v8, a1);
L29:;
PUT64(a2 + v4, 0, v7);
v4 = AT64(v3, 392);
TEST(v4);
SET16(v4, 0, (u32)AT64(v3, 328));
SET64(v6, 0, v4);
v31 = AT8(v5, 1);
if (v31 <= 7u) {
v30 = AT8(v5, 0);
goto L22;
}
SET8(v5, 1, v31 - 8u);
v30 = v30 + 1u;
SET8(v5, 0, v30);
L22:;
a2 = v13 - 1u;
v5 = v5 + 1u;
v8 = (u64)v30 & 255u;
v6 = (v4 + (v8 << 3)) + 1208u;
if (v13 > 2u) goto L21;
v5 = AT64(a0, 8);
}
TEST(v5);
if (AT16(v5, 0) == 0) goto L13;
v9 = 0u;
a2 = v10;
L31:;
v9 = (u64)GET8((v3 + 144u) + a2, 0) + (v9 << 4);
a2 = a2 + 1u;
if (a2 != 16u) goto L31;
}
j0 = 0u;
goto L3;
L14:;
v5 = AT64(a0, 8);
TEST(v5);
if (AT16(v5, 0)) goto L5;
L13:;
if (AT16(v5, 2) == 0) goto L5;
j1 = in_std_collections_btree_tree_places_only_edge_d4294551460d727f(RUD_AS v5);
RUD_AGAIN
SET64(a0, 8, j1);
L5:;
a0 = AT64(v3, 120);
j0 = AT64(v3, 136);
SET64(v3, 160, 0u);
if (!(j0 == 0)) {
rud_dealloc(RUD_AS a0);
RUD_AGAIN
}
SET64(v3, 208, v14);
SET64(v3, 200, v15);
SET64(v3, 192, v16);
SET32(v3, 188, v32);
SET32(v3, 184, v33);
SET64(v3, 176, v17);
SET64(v3, 168, v18);
SET8(v3, 161, v34);
SET8(v3, 160, v35);
in_toml_toml_de_tables_Node_Destruct_drop(RUD_AS v3 + 160u);
RUD_AGAIN
v33 = 1u;
goto L2;
L4:;
v11 = v11 + 1u;
v9 = (v9 << 4) + a1;
j0 = 1u;
L3:;
v7 = j0;
SET64(v3, 104, v8);
SET64(v3, 96, v4);
SET64(v3, 88, v11);
SET64(v3, 80, v10);
SET64(v3, 72, v9);
SET64(v3, 112, v7);
if (!(v7 == 0)) {
j0 = in_std_collections_btree_map_BTreeMap_value_mut_at_8494fc2367ed18cf(RUD_AS a0, v3 + 72u);
a0 = j0;
TEST(a0);
SET64(a0, 48, v14);
SET8(a0, 1, v34);
v34 = AT8(a0, 0);
SET8(a0, 0, v35);
v35 = AT32(a0, 44);
a1 = a0 + 40u;
v30 = AT32(a0, 40);
SET64(a0, 40, v15);
a1 = a0 + 32u;
v6 = AT64(a0, 32);
SET64(a0, 32, v16);
a1 = a0 + 24u;
v11 = AT64(a0, 24);
SET32(a0, 28, v32);
SET32(a0, 24, v33);
v31 = AT8(a0, 17);
a1 = a0 + 16u;
v32 = AT8(a0, 16);
j0 = (u64)AT32(a0, 18);
j1 = (u64)AT16(a0, 22);
SET64(a0, 16, v17);
a0 = a0 + 8u;
TEST(a0);
a2 = AT64(a0, 0);
SET64(a0, 0, v18);
a1 = j0 | (j1 << 32);
if (AT64(v3, 136) == 0) goto L33;
rud_dealloc(RUD_AS AT64(v3, 120));
RUD_AGAIN
goto L33;
}
if (AT8(a0, 0) != 1u) goto L1;
SET64(v3, 608, AT64(v3, 136));
SET64(v3, 600, AT64(v3, 128));
SET64(v3, 592, AT64(v3, 120));
v6 = (v11 - v10) == 1u ? v12 : ((v4 + (v8 << 3)) + 1208u);
TEST(v6);
a1 = AT64(v6, 0);
SET64(v3, 232, a1);
SET64(v3, 208, a1 + 1208u);
SET64(v3, 200, 15u);
SET64(v3, 184, a1 + 368u);
SET64(v3, 176, 15u);
SET64(v3, 160, a1 + 8u);
TEST(a1);
a2 = (u64)AT16(a1, 0);
SET64(v3, 192, a2);
SET64(v3, 168, a2);
v11 = 0u;
v30 = AT16(a1, 2);
SET64(v3, 224, v30 ? 16ull : 0ull);
SET64(v3, 216, v30 ? (a2 + 1u) : 0ull);
SET64(v3, 672, 0u);
a1 = v9 & 15u;
in_std_alloc_vec_lodged_Vec_T_Lodged_insert_reserved_483ec8513fd57e(RUD_AS v3 + 160u, a1, v3 + 592u);
SET64(v3, 720, v14);
SET64(v3, 712, v15);
SET64(v3, 704, v16);
SET32(v3, 700, v32);
SET32(v3, 696, v33);
SET64(v3, 688, v17);
SET64(v3, 680, v18);
SET8(v3, 673, v34);
SET8(v3, 672, v35);
in_std_alloc_vec_lodged_Vec_T_Lodged_insert_reserved_22_toml_de_tab(RUD_AS v3 + 184u, a1, v3 + 672u);
a1 = AT64(v3, 232);
TEST(a1);
SET16(a1, 0, (u32)AT64(v3, 168));
SET64(v6, 0, a1);
a0 = a0 + 16u;
TEST(a0);
SET64(a0, 0, AT64(a0, 0) + 1u);
v34 = 0u;
a1 = 0u;
v6 = 0u;
v30 = 0u;
v35 = 0u;
a2 = 0u;
v32 = 0u;
v31 = 0u;
L33:;
v33 = 0u;
if ((u32)v7 == 0) goto L2;
a0 = ((u64)v31 & 255u) | (a1 << 8);
v31 = (u32)a2;
switch ((u32)((u64)v34 & 255u) - 1u) {
case 0u: goto L36;
case 1u: goto L35;
default: goto L37;
}
L37:;
switch ((u32)((u64)v31 & 255u) - 1u) {
case 0u: case 1u: case 2u: case 3u: goto L2;
case 4u: goto L39;
case 5u: goto L38;
default: goto L40;
}
L40:;
if (v6 == 0) goto L2;
rud_dealloc(RUD_AS ((u64)v32 & 255u) | (a0 << 8));
RUD_AGAIN
goto L2;
L39:;
SET64(v3, 64, v6);
SET64(v3, 56, v11);
SET8(v3, 48, v32);
SET32(v3, 49, (u32)a0);
SET8(v3, 55, (u32)(a0 >> 48));
SET16(v3, 53, (u32)(a0 >> 32));
in_std_alloc_vec_Vec_drop_f8ad6a88bf30276b(RUD_AS v3 + 48u);
RUD_AGAIN
goto L2;
L38:;
if (v32 != 1u) goto L2;
in_std_collections_btree_node_Node_destroy_031b4c9998add48b(RUD_AS v11);
RUD_AGAIN
goto L2;
L36:;
if ((v31 & 255u) != 1u) goto L2;
in_std_collections_btree_node_Node_destroy_dc0ad195889b9f50(RUD_AS ((u64)v32 & 255u) | (a0 << 8));
RUD_AGAIN
goto L2;
L35:;
SET32(v3, 33, (u32)a0);
SET8(v3, 39, (u32)(a0 >> 48));
SET16(v3, 37, (u32)(a0 >> 32));
SET64(v3, 40, v11);
SET8(v3, 32, v32);
SET64(v3, 24, a2);
in_std_alloc_vec_Vec_drop_f8ad6a88bf30276b(RUD_AS v3 + 24u);
RUD_AGAIN
if ((v6 & 255u) != 1u) goto L2;
in_std_collections_btree_node_Node_destroy_dc0ad195889b9f50(RUD_AS (u64)v30 | ((u64)v35 << 32));
RUD_AGAIN
L2:;
RUD_G0 = v3 + 880u;
return v33;
L1:;
rud_trap();
return 0;
}

static void in_std_alloc_string_methods_StringClone_clone_23d1122e78b2f742(RUD_IT u64 a0, u64 a1) {
u32 v7 = 0, i0 = 0;
u64 v2 = 0, v3 = 0, v4 = 0, v5 = 0, v6 = 0;
RUD_HERE
v2 = RUD_G0 - 192u;
RUD_G0 = v2;
if ((s64)v2 >= (s64)16u) {
TEST(v2);
SET64(v2, 31, 0u);
SET64(v2, 24, 0u);
SET64(v2, 16, 0u);
SET64(v2, 8, 0u);
TEST(a1);
v4 = AT64(a1, 8);
a1 = AT64(a1, 0);
SET64(v2, 72, 0u);
SET64(v2, 80, 0u);
SET64(v2, 88, 0u);
SET64(v2, 95, 0u);
SET64(v2, 40, 0u);
SET64(v2, 48, 0u);
SET64(v2, 56, 0u);
SET64(v2, 63, 0u);
SET64(v2, 168, 0u);
SET64(v2, 176, 0u);
SET64(v2, 160, v2 + 191u);
v7 = v4 == 0;
if (v7) goto L4;
i0 = in_std_alloc_vec_Vec_move_to_795f5fd3dc7a282e(RUD_AS v2 + 160u, v4);
RUD_AGAIN
if (i0) goto L4;
if (AT64(v2, 176) == 0) goto L2;
rud_dealloc(RUD_AS AT64(v2, 160));
RUD_AGAIN
goto L2;
L4:;
v5 = AT64(v2, 176);
SET64(v2, 128, v5);
v3 = AT64(v2, 168);
SET64(v2, 120, v3);
v6 = AT64(v2, 160);
SET64(v2, 112, v6);
SET64(v2, 136, v6);
SET64(v2, 144, v3);
SET64(v2, 152, v5);
if ((v5 - v3) < v4) {
i0 = in_std_alloc_vec_Vec_grow_amortized_795f5fd3dc7a282e(RUD_AS v2 + 136u, v4);
RUD_AGAIN
if (i0 == 0) goto L7;
v3 = AT64(v2, 144);
v5 = AT64(v2, 152);
}
v6 = v3 + v4;
v3 = AT64(v2, 136) + v3;
if ((v3 - a1) < v4) goto L6;
if (v7) goto L5;
COPY(v3, a1, v4);
goto L5;
L7:;
if (AT64(v2, 152) == 0) goto L2;
rud_dealloc(RUD_AS AT64(v2, 136));
RUD_AGAIN
goto L2;
L6:;
L9:;
TEST(a1);
TEST(v3);
SET8(v3, 0, AT8(a1, 0));
v3 = v3 + 1u;
a1 = a1 + 1u;
v4 = v4 - 1u;
if (!(v4 == 0)) goto L9;
L5:;
a1 = AT64(v2, 136);
SET64(v2, 79, a1);
SET64(v2, 87, v6);
SET64(v2, 95, v5);
SET64(v2, 47, a1);
SET64(v2, 55, v6);
SET64(v2, 63, v5);
i0 = 0u;
goto L1;
}
rud_trap();
L2:;
i0 = 1u;
L1:;
v7 = i0;
v5 = AT64(v2, 63);
SET64(v2, 31, v5);
v6 = AT64(v2, 55);
SET64(v2, 23, v6);
a1 = AT64(v2, 47);
SET64(v2, 15, a1);
TEST(a0);
SET8(a0, 0, v7);
SET64(a0, 8, a1);
SET64(a0, 16, v6);
SET64(a0, 24, v5);
RUD_G0 = v2 + 192u;
}

static void in_toml_de_tables_along_dots(RUD_IT u64 a0, u64 a1, u64 a2, u64 a3, u64 a4, u64 a5) {
u32 v20 = 0, v21 = 0, v22 = 0, v23 = 0, v24 = 0, v25 = 0, v26 = 0, v27 = 0, v28 = 0, i0 = 0;
u64 v6 = 0, v7 = 0, v8 = 0, v9 = 0, v10 = 0, v11 = 0, v12 = 0, v13 = 0, v14 = 0, v15 = 0, v16 = 0, v17 = 0;
u64 v18 = 0, v19 = 0, j0 = 0;
RUD_HERE
v6 = RUD_G0 - 576u;
RUD_G0 = v6;
if ((s64)v6 >= (s64)16u) {
TEST(a5);
v23 = AT8(a5, 9);
v24 = AT32(a5, 40);
v8 = AT64(a5, 32);
v9 = AT64(a5, 24);
v25 = AT32(a5, 12);
v7 = AT64(a5, 16);
v21 = AT8(a5, 8);
TEST(a4);
v10 = AT64(a4, 16);
v11 = AT64(a4, 8);
a4 = AT64(a4, 0);
v20 = AT8(a5, 0);
TEST(v6);
SET16(v6, 300, 0u);
SET32(v6, 296, 0u);
SET64(v6, 272, 0u);
SET64(v6, 280, 0u);
SET64(v6, 288, 0u);
SET64(v6, 248, 0u);
SET64(v6, 256, 0u);
SET64(v6, 264, 0u);
FILL_FEW(v6 + 200u, 0u, 48u);
SET64(v6, 192, 0u);
SET64(v6, 184, 0u);
SET64(v6, 176, 0u);
SET64(v6, 168, 0u);
FILL_FEW(v6 + 112u, 0u, 56u);
SET16(v6, 108, 0u);
SET32(v6, 104, 0u);
SET64(v6, 80, 0u);
SET64(v6, 88, 0u);
SET64(v6, 96, 0u);
SET64(v6, 56, 0u);
SET64(v6, 64, 0u);
SET64(v6, 72, 0u);
if (a3 == 0) {
SET64(v6, 328, 0u);
SET64(v6, 424, 0u);
SET64(v6, 432, 0u);
SET64(v6, 440, 0u);
SET64(v6, 304, 0u);
SET64(v6, 312, 0u);
SET64(v6, 320, 0u);
in_std_collections_btree_map_BTreeMap_get_mut_73c392a72f38babf(RUD_AS v6 + 8u, a1, a4, v11);
if (AT8(v6, 8) == 1u) {
a1 = AT64(v6, 16);
a2 = a1 + 8u;
TEST(a2);
v22 = AT8(a2, 0);
SET8(a2, 0, 3u);
TEST(a1);
v25 = AT8(a1, 1);
v23 = AT8(a1, 0);
SET16(a1, 0, 0u);
v13 = a1 + 10u;
SET32(v6, 384, AT32(a2, 2));
SET16(v6, 388, AT16(a2, 6));
v14 = a1 + 9u;
v24 = AT8(a2, 1);
a2 = AT64(a2, 8);
a5 = AT64(a1, 24);
a3 = a1 + 32u;
v11 = AT64(a1, 32);
v12 = AT64(a1, 40);
v15 = AT64(a1, 48);
FILL_FEW(v14, 0u, 47u);
SET64(v6, 392, 0u);
SET64(v6, 400, 0u);
SET64(v6, 408, 0u);
SET64(v6, 416, 0u);
switch (v20 - 1u) {
case 0u: goto L16;
case 1u: goto L15;
default: goto L14;
}
L16:;
if ((u32)(v23 != 1u) | v25) goto L13;
SET64(a1, 24, a5);
SET64(a1, 16, a2);
SET64(a1, 8, (u64)v22);
SET8(a1, 1, 2u);
SET8(a1, 0, v20);
SET64(a1, 32, 0u);
SET64(a1, 40, 0u);
SET64(a1, 48, 0u);
goto L3;
L15:;
switch (v23 - 1u) {
case 0u: goto L11;
case 1u: goto L17;
default: goto L12;
}
L17:;
SET8(v6, 545, v24);
SET8(v6, 544, v22);
SET32(v6, 546, AT32(v6, 384));
SET16(v6, 550, AT16(v6, 388));
SET64(v6, 560, a5);
SET64(v6, 552, a2);
SET64(v6, 536, v15);
SET64(v6, 528, v12);
SET64(v6, 520, v11 & 255u);
in_toml_de_tables_close_array(RUD_AS v6 + 392u, v6 + 544u, v6 + 520u);
RUD_AGAIN
if (AT8(v6, 392) == 0) goto L4;
i0 = 0u;
goto L8;
L14:;
switch (v21 - 1u) {
case 0u: case 1u: case 2u: case 3u: goto L13;
case 4u: goto L19;
case 5u: goto L18;
default: goto L20;
}
L20:;
if (v8 == 0) goto L13;
rud_dealloc(RUD_AS v7);
RUD_AGAIN
goto L13;
L19:;
SET64(v6, 512, v8);
SET64(v6, 504, v9);
SET64(v6, 496, v7);
in_std_alloc_vec_Vec_drop_f8ad6a88bf30276b(RUD_AS v6 + 496u);
RUD_AGAIN
goto L13;
L18:;
if ((v7 & 255u) != 1u) goto L13;
in_std_collections_btree_node_Node_destroy_031b4c9998add48b(RUD_AS v9);
RUD_AGAIN
L13:;
switch (v23 - 1u) {
case 0u: goto L11;
case 1u: goto L10;
default: goto L12;
}
L12:;
switch (v22 - 1u) {
case 0u: case 1u: case 2u: case 3u: goto L9;
case 4u: goto L22;
case 5u: goto L21;
default: goto L23;
}
L23:;
if (v11 == 0) goto L9;
rud_dealloc(RUD_AS a2);
RUD_AGAIN
goto L9;
L22:;
SET64(v6, 488, v11);
SET64(v6, 480, a5);
SET64(v6, 472, a2);
in_std_alloc_vec_Vec_drop_f8ad6a88bf30276b(RUD_AS v6 + 472u);
RUD_AGAIN
goto L9;
L21:;
if ((a2 & 255u) != 1u) goto L9;
in_std_collections_btree_node_Node_destroy_031b4c9998add48b(RUD_AS a5);
RUD_AGAIN
goto L9;
L11:;
if (v22 != 1u) goto L9;
in_std_collections_btree_node_Node_destroy_dc0ad195889b9f50(RUD_AS a2);
RUD_AGAIN
goto L9;
L10:;
SET8(v6, 449, v24);
SET8(v6, 448, v22);
SET32(v6, 450, AT32(v6, 384));
SET16(v6, 454, AT16(v6, 388));
SET64(v6, 464, a5);
SET64(v6, 456, a2);
in_std_alloc_vec_Vec_drop_f8ad6a88bf30276b(RUD_AS v6 + 448u);
RUD_AGAIN
if ((v11 & 255u) != 1u) goto L9;
in_std_collections_btree_node_Node_destroy_dc0ad195889b9f50(RUD_AS v12);
RUD_AGAIN
L9:;
i0 = 16u;
L8:;
v20 = i0;
v21 = 1u;
if (v10 == 0) goto L1;
rud_dealloc(RUD_AS a4);
RUD_AGAIN
goto L1;
}
SET64(v6, 408, v10);
SET64(v6, 400, v11);
SET64(v6, 392, a4);
v22 = 2u;
a5 = 0u;
a4 = 0u;
a2 = 0u;
a3 = 0u;
v10 = 0u;
switch (v20 - 1u) {
case 0u: goto L24;
case 1u: goto L25;
default: goto L26;
}
L26:;
a5 = ((u64)v21 | (((u64)v23 & 255u) << 8)) | ((u64)v25 << 32);
v10 = (u64)v24;
v22 = 0u;
a4 = v7;
a2 = v9;
a3 = v8;
goto L24;
L25:;
v22 = 0u;
a5 = v6 + 568u;
L24:;
SET64(v6, 376, 0u);
SET64(v6, 368, v10);
SET64(v6, 360, a3);
SET64(v6, 352, a2);
SET64(v6, 344, a4);
SET64(v6, 336, a5);
SET8(v6, 329, v22);
SET8(v6, 328, v20);
v20 = 0u;
v21 = in_toml_de_tables_insert(RUD_AS a1, v6 + 392u, v6 + 328u);
RUD_AGAIN
goto L1;
}
v12 = (u64)v20;
TEST(a2);
in_std_collections_btree_map_BTreeMap_get_mut_73c392a72f38babf(RUD_AS v6 + 40u, a1, AT64(a2, 0), AT64(a2, 8));
v14 = a3 - 1u;
v15 = a2 + 24u;
if (AT8(v6, 40) == 1u) {
v26 = (u32)v7;
a1 = AT64(v6, 48);
a2 = a1 + 8u;
TEST(a2);
v22 = AT8(a2, 0);
SET8(a2, 0, 3u);
TEST(a1);
v27 = AT8(a1, 1);
v17 = (u64)AT8(a1, 0);
SET16(a1, 0, 0u);
v16 = a1 + 10u;
SET32(v6, 296, AT32(a2, 2));
SET16(v6, 300, AT16(a2, 6));
v18 = a1 + 9u;
v28 = AT8(a2, 1);
a2 = AT64(a2, 8);
a3 = AT64(a1, 24);
a5 = a1 + 32u;
v13 = AT64(a1, 32);
v19 = AT64(a1, 40);
FILL_FEW(v18, 0u, 47u);
switch ((u32)v17 - 1u) {
case 0u: goto L32;
case 1u: goto L31;
default: goto L30;
}
L32:;
FILL_FEW(v6 + 336u, 0u, 40u);
SET64(v6, 408, a3);
SET64(v6, 400, a2);
SET64(v6, 392, (u64)v22);
if (v27 == 2u) {
if (v20) goto L34;
switch (v21 - 1u) {
case 0u: case 1u: case 2u: case 3u: goto L34;
case 4u: goto L36;
case 5u: goto L35;
default: goto L37;
}
L37:;
if (v8 == 0) goto L34;
rud_dealloc(RUD_AS v7);
RUD_AGAIN
goto L34;
L36:;
SET64(v6, 536, v8);
SET64(v6, 528, v9);
SET64(v6, 520, v7);
in_std_alloc_vec_Vec_drop_f8ad6a88bf30276b(RUD_AS v6 + 520u);
RUD_AGAIN
goto L34;
L35:;
if ((v26 & 255u) != 1u) goto L34;
in_std_collections_btree_node_Node_destroy_031b4c9998add48b(RUD_AS v9);
RUD_AGAIN
L34:;
if (!(v10 == 0)) {
rud_dealloc(RUD_AS a4);
RUD_AGAIN
}
v20 = 16u;
if (v22 != 1u) goto L29;
in_std_collections_btree_node_Node_destroy_dc0ad195889b9f50(RUD_AS a2);
RUD_AGAIN
goto L29;
}
SET64(v6, 560, v10);
SET64(v6, 552, v11);
SET64(v6, 544, a4);
SET32(v6, 368, v24);
SET64(v6, 360, v8);
SET64(v6, 352, v9);
SET64(v6, 344, v7);
SET32(v6, 340, v25);
SET8(v6, 337, v23);
SET8(v6, 336, v21);
SET64(v6, 328, v12);
in_toml_de_tables_along_dots(RUD_AS v6 + 24u, v6 + 392u, v15, v14, v6 + 544u, v6 + 328u);
RUD_AGAIN
v21 = AT8(v6, 392);
if (AT8(v6, 24) == 0) goto L28;
v20 = AT8(v6, 25);
if (v21 != 1u) goto L29;
in_std_collections_btree_node_Node_destroy_dc0ad195889b9f50(RUD_AS AT64(v6, 400));
RUD_AGAIN
goto L29;
L31:;
if (v20) goto L39;
switch (v21 - 1u) {
case 0u: case 1u: case 2u: case 3u: goto L39;
case 4u: goto L41;
case 5u: goto L40;
default: goto L42;
}
L42:;
if (v8 == 0) goto L39;
rud_dealloc(RUD_AS v7);
RUD_AGAIN
goto L39;
L41:;
SET64(v6, 512, v8);
SET64(v6, 504, v9);
SET64(v6, 496, v7);
in_std_alloc_vec_Vec_drop_f8ad6a88bf30276b(RUD_AS v6 + 496u);
RUD_AGAIN
goto L39;
L40:;
if ((v26 & 255u) != 1u) goto L39;
in_std_collections_btree_node_Node_destroy_031b4c9998add48b(RUD_AS v9);
RUD_AGAIN
L39:;
if (!(v10 == 0)) {
rud_dealloc(RUD_AS a4);
RUD_AGAIN
}
SET8(v6, 473, v28);
SET8(v6, 472, v22);
SET32(v6, 474, AT32(v6, 296));
SET16(v6, 478, AT16(v6, 300));
SET64(v6, 488, a3);
SET64(v6, 480, a2);
in_std_alloc_vec_Vec_drop_f8ad6a88bf30276b(RUD_AS v6 + 472u);
RUD_AGAIN
v20 = 16u;
if ((v13 & 255u) != 1u) goto L29;
in_std_collections_btree_node_Node_destroy_dc0ad195889b9f50(RUD_AS v19);
RUD_AGAIN
goto L29;
L30:;
if (v20) goto L44;
switch (v21 - 1u) {
case 0u: case 1u: case 2u: case 3u: goto L44;
case 4u: goto L46;
case 5u: goto L45;
default: goto L47;
}
L47:;
if (v8 == 0) goto L44;
rud_dealloc(RUD_AS v7);
RUD_AGAIN
goto L44;
L46:;
SET64(v6, 464, v8);
SET64(v6, 456, v9);
SET64(v6, 448, v7);
in_std_alloc_vec_Vec_drop_f8ad6a88bf30276b(RUD_AS v6 + 448u);
RUD_AGAIN
goto L44;
L45:;
if ((v26 & 255u) != 1u) goto L44;
in_std_collections_btree_node_Node_destroy_031b4c9998add48b(RUD_AS v9);
RUD_AGAIN
L44:;
if (!(v10 == 0)) {
rud_dealloc(RUD_AS a4);
RUD_AGAIN
}
v20 = 17u;
switch (v22 - 1u) {
case 0u: case 1u: case 2u: case 3u: goto L29;
case 4u: goto L50;
case 5u: goto L49;
default: goto L51;
}
L51:;
if (v13 == 0) goto L29;
rud_dealloc(RUD_AS a2);
RUD_AGAIN
goto L29;
L50:;
SET64(v6, 440, v13);
SET64(v6, 432, a3);
SET64(v6, 424, a2);
in_std_alloc_vec_Vec_drop_f8ad6a88bf30276b(RUD_AS v6 + 424u);
RUD_AGAIN
goto L29;
L49:;
if ((a2 & 255u) != 1u) goto L29;
in_std_collections_btree_node_Node_destroy_031b4c9998add48b(RUD_AS a3);
RUD_AGAIN
L29:;
v21 = 1u;
goto L1;
L28:;
a4 = AT64(v6, 408);
a3 = AT64(v6, 400);
v20 = AT8(a1, 9);
a2 = a1 + 8u;
v22 = AT8(a1, 8);
v23 = AT16(a1, 14);
v24 = AT32(a1, 10);
SET64(a1, 8, (u64)v21 & 255u);
v7 = a1 + 16u;
a2 = AT64(a1, 16);
SET64(a1, 16, a3);
v7 = a1 + 24u;
a3 = AT64(a1, 24);
SET64(a1, 24, a4);
a4 = AT64(a1, 32);
j0 = AT64(a1, 40);
SET64(a1, 40, 0u);
SET64(a1, 48, 0u);
SET64(a1, 32, 0u);
a5 = (u64)AT8(a1, 0);
SET16(a1, 0, 257u);
SET32(v6, 104, v24);
SET16(v6, 108, v23);
a1 = a2 >> 8;
v23 = (u32)a2;
switch ((u32)a5 - 1u) {
case 0u: goto L53;
case 1u: goto L52;
default: goto L54;
}
L54:;
v20 = 0u;
v21 = 0u;
switch (v22 - 1u) {
case 0u: case 1u: case 2u: case 3u: goto L1;
case 4u: goto L56;
case 5u: goto L55;
default: goto L57;
}
L57:;
if (a4 == 0) goto L2;
rud_dealloc(RUD_AS a2);
RUD_AGAIN
goto L2;
L56:;
SET64(v6, 96, a4);
SET64(v6, 88, a3);
SET8(v6, 80, v23);
SET32(v6, 81, (u32)a1);
SET8(v6, 87, (u32)(a1 >> 48));
SET16(v6, 85, (u32)(a1 >> 32));
in_std_alloc_vec_Vec_drop_f8ad6a88bf30276b(RUD_AS v6 + 80u);
RUD_AGAIN
goto L2;
L55:;
if ((v23 & 255u) != 1u) goto L2;
in_std_collections_btree_node_Node_destroy_031b4c9998add48b(RUD_AS a3);
RUD_AGAIN
goto L2;
L53:;
v20 = 0u;
if (v22 != 1u) goto L2;
in_std_collections_btree_node_Node_destroy_dc0ad195889b9f50(RUD_AS a2);
RUD_AGAIN
goto L2;
L52:;
SET32(v6, 65, (u32)a1);
SET8(v6, 71, (u32)(a1 >> 48));
SET16(v6, 69, (u32)(a1 >> 32));
SET8(v6, 57, v20);
SET8(v6, 56, v22);
SET32(v6, 58, AT32(v6, 104));
SET16(v6, 62, AT16(v6, 108));
SET64(v6, 72, a3);
SET8(v6, 64, v23);
in_std_alloc_vec_Vec_drop_f8ad6a88bf30276b(RUD_AS v6 + 56u);
RUD_AGAIN
v20 = 0u;
if ((a4 & 255u) != 1u) goto L2;
in_std_collections_btree_node_Node_destroy_dc0ad195889b9f50(RUD_AS j0);
RUD_AGAIN
goto L2;
}
SET64(v6, 288, 0u);
SET64(v6, 280, 0u);
SET64(v6, 272, 0u);
SET64(v6, 264, v10);
SET64(v6, 256, v11);
SET64(v6, 248, a4);
SET32(v6, 240, v24);
SET64(v6, 232, v8);
SET64(v6, 224, v9);
SET64(v6, 216, v7);
SET32(v6, 212, v25);
SET8(v6, 209, v23);
SET8(v6, 208, v21);
SET64(v6, 200, v12);
in_toml_de_tables_along_dots(RUD_AS v6 + 32u, v6 + 272u, v15, v14, v6 + 248u, v6 + 200u);
RUD_AGAIN
if (AT8(v6, 32) == 0) {
in_std_alloc_string_methods_StringClone_clone_23d1122e78b2f742(RUD_AS v6 + 168u, a2);
RUD_AGAIN
v22 = AT8(v6, 272);
if (AT8(v6, 168)) goto L58;
SET64(v6, 136, AT64(v6, 288));
SET64(v6, 128, AT64(v6, 280));
SET64(v6, 120, (u64)v22 & 255u);
SET16(v6, 112, 257u);
v20 = 0u;
v21 = in_toml_de_tables_insert(RUD_AS a1, v6 + 176u, v6 + 112u);
RUD_AGAIN
goto L1;
}
v20 = AT8(v6, 33);
v21 = 1u;
if (AT8(v6, 272) != 1u) goto L1;
in_std_collections_btree_node_Node_destroy_dc0ad195889b9f50(RUD_AS AT64(v6, 280));
RUD_AGAIN
goto L1;
L58:;
v21 = 1u;
v20 = 0u;
if (v22 != 1u) goto L1;
in_std_collections_btree_node_Node_destroy_dc0ad195889b9f50(RUD_AS AT64(v6, 280));
RUD_AGAIN
goto L1;
}
rud_trap();
L4:;
v8 = AT64(a1, 40);
a5 = AT64(a1, 32);
v9 = a1 + 24u;
v7 = AT64(a1, 24);
v11 = a1 + 16u;
a2 = AT64(a1, 16);
v22 = AT8(a1, 9);
v12 = a1 + 8u;
v21 = AT8(a1, 8);
v14 = (u64)AT8(a1, 0);
v15 = AT64(v6, 400);
v16 = AT64(v6, 408);
SET64(a1, 24, AT64(v6, 416));
SET64(a1, 16, v16);
SET8(a1, 1, 0u);
SET8(a1, 0, v20);
SET64(a1, 32, 0u);
SET64(a1, 40, 0u);
SET64(a1, 48, 0u);
v20 = AT16(a1, 14);
v23 = AT32(a1, 10);
SET64(a1, 8, v15);
SET32(v6, 392, v23);
SET16(v6, 396, v20);
switch ((u32)v14 - 1u) {
case 0u: goto L61;
case 1u: goto L62;
default: goto L60;
}
L62:;
SET8(v6, 305, v22);
SET8(v6, 304, v21);
SET32(v6, 306, AT32(v6, 392));
SET16(v6, 310, AT16(v6, 396));
SET64(v6, 320, v7);
SET64(v6, 312, a2);
in_std_alloc_vec_Vec_drop_f8ad6a88bf30276b(RUD_AS v6 + 304u);
RUD_AGAIN
if ((a5 & 255u) != 1u) goto L3;
in_std_collections_btree_node_Node_destroy_dc0ad195889b9f50(RUD_AS v8);
RUD_AGAIN
goto L3;
L61:;
if (v21 != 1u) goto L3;
in_std_collections_btree_node_Node_destroy_dc0ad195889b9f50(RUD_AS a2);
RUD_AGAIN
goto L3;
L60:;
switch (v21 - 1u) {
case 0u: case 1u: case 2u: case 3u: goto L3;
case 4u: goto L64;
case 5u: goto L63;
default: goto L65;
}
L65:;
if (a5 == 0) goto L3;
rud_dealloc(RUD_AS a2);
RUD_AGAIN
goto L3;
L64:;
SET64(v6, 440, a5);
SET64(v6, 432, v7);
SET64(v6, 424, a2);
in_std_alloc_vec_Vec_drop_f8ad6a88bf30276b(RUD_AS v6 + 424u);
RUD_AGAIN
goto L3;
L63:;
if ((a2 & 255u) != 1u) goto L3;
in_std_collections_btree_node_Node_destroy_031b4c9998add48b(RUD_AS v7);
RUD_AGAIN
L3:;
v20 = 0u;
if (v10 == 0) goto L2;
rud_dealloc(RUD_AS a4);
RUD_AGAIN
L2:;
v21 = 0u;
L1:;
TEST(a0);
SET8(a0, 1, v20);
SET8(a0, 0, v21);
RUD_G0 = v6 + 576u;
}

static void in_toml_de_value_value(RUD_IT u64 a0, u64 a1, u64 a2, u64 a3) {
u32 v18 = 0, v19 = 0, v20 = 0, v21 = 0, v22 = 0, v23 = 0, v24 = 0, v25 = 0, v26 = 0, v27 = 0, i0 = 0, i2 = 0;
u64 v4 = 0, v5 = 0, v6 = 0, v7 = 0, v8 = 0, v9 = 0, v10 = 0, v11 = 0, v12 = 0, v13 = 0, v14 = 0, v15 = 0;
u64 v16 = 0, v17 = 0, j0 = 0, j1 = 0;
RUD_HERE
v4 = RUD_G0 - 432u;
RUD_G0 = v4;
if ((s64)v4 >= (s64)16u) {
if (a2 == 0) goto L17;
TEST(a1);
v18 = AT8(a1, 0);
if (v18 <= 90u) {
if ((u32)(v18 != 34u) & (u32)(v18 != 39u)) goto L17;
FILL_FEW(v4 + 208u, 0u, 48u);
if (a2 == 1u) goto L14;
if (AT8(a1, 1) != v18) goto L14;
if (a2 >= 3u) {
i0 = AT8(a1, 2);
} else {
i0 = 0u;
}
if ((i0 & 255u) != v18) goto L14;
v5 = a1 + 3u;
a3 = a2 - 3u;
if (!(a3 == 0)) goto L16;
a3 = 0u;
goto L15;
}
if ((u32)(v18 == 91u) | (u32)(v18 == 123u)) goto L11;
L17:;
TEST(v4);
SET32(v4, 288, 0u);
SET64(v4, 280, 0u);
SET8(v4, 146, 0u);
SET16(v4, 144, 2u);
SET64(v4, 224, 0u);
SET64(v4, 208, a1);
SET64(v4, 232, v4 + 144u);
SET64(v4, 216, a2);
j0 = in_core_iter_base_Iterator_count_af506e600b762b0d(RUD_AS v4 + 208u);
a3 = j0;
if (a3 >= a2) goto L20;
if (GET8(a1 + a3, 0) != 32u) goto L20;
v6 = a3 + 1u;
if (a2 <= v6) goto L20;
v5 = a1 + v6;
TEST(v5);
if (((AT8(v5, 0) - 48u) & 255u) > 9u) goto L20;
SET8(v4, 146, 0u);
SET16(v4, 144, 2u);
SET64(v4, 224, 0u);
SET64(v4, 216, a2 - v6);
SET64(v4, 208, v5);
SET64(v4, 232, v4 + 144u);
j0 = in_core_iter_base_Iterator_count_af506e600b762b0d(RUD_AS v4 + 208u);
a3 = j0 + v6;
L20:;
if (a3 != 0u) goto L12;
v5 = 0u;
v20 = 12u;
v19 = 1u;
v9 = 1u;
v6 = a2;
goto L3;
L16:;
v19 = AT8(a1, 3);
if (v19 == 10u) {
a3 = a2 - 4u;
v5 = a1 + 4u;
goto L15;
}
if ((u32)(v19 != 13u) | (u32)(a3 == 1u)) goto L15;
if (AT8(a1, 4) != 10u) goto L15;
a3 = a2 - 5u;
v5 = a1 + 5u;
L15:;
in_toml_parser_string_body(RUD_AS v4 + 208u, v5, a3, v18, 1u);
RUD_AGAIN
goto L13;
L14:;
in_toml_parser_string_one_line(RUD_AS v4 + 208u, a1, a2);
RUD_AGAIN
L13:;
TEST(v4);
v5 = AT64(v4, 232);
v6 = AT64(v4, 224);
a2 = AT64(v4, 216);
if (AT8(v4, 208) == 0) {
v12 = AT64(v4, 248);
v19 = 0u;
v18 = 0u;
j0 = AT64(v4, 240);
goto L2;
}
v20 = (u32)(a2 >> 8);
v19 = (u32)a2;
v9 = 1u;
a2 = v6;
v6 = v5;
v5 = 0u;
v18 = 0u;
j0 = 0u;
goto L2;
L12:;
v12 = a2 - a3;
SET64(v4, 408, a3);
SET64(v4, 400, a1);
SET64(v4, 336, 4u);
SET64(v4, 328, 4194304u);
SET64(v4, 312, 5u);
SET64(v4, 304, 4194308u);
i0 = in_core_cmp_text_RefStrPartialEq_eq(RUD_AS v4 + 400u, v4 + 328u);
if (i0) {
v25 = 1u;
goto L28;
}
i0 = in_core_cmp_text_RefStrPartialEq_eq(RUD_AS v4 + 400u, v4 + 304u);
if (i0) goto L28;
SET8(v4, 146, 0u);
SET16(v4, 144, 3u);
SET64(v4, 224, 0u);
SET64(v4, 208, a1);
SET64(v4, 232, v4 + 144u);
SET64(v4, 216, a3);
j1 = in_core_iter_base_Iterator_count_af506e600b762b0d(RUD_AS v4 + 208u);
v6 = j1;
if (a3 > v6) {
i0 = GET8(a1 + v6, 0);
} else {
i0 = 0u;
}
v18 = i0 & 255u;
if ((u32)(v18 != 45u) & (u32)(v18 != 58u)) goto L30;
TEST(a1);
if (((AT8(a1, 0) - 48u) & 255u) > 9u) goto L30;
FILL_FEW(v4 + 144u, 0u, 40u);
if (a3 < 3u) goto L32;
if (AT8(a1, 2) != 58u) goto L32;
in_toml_datetime_parse_partial_time(RUD_AS v4 + 144u, a1, a3);
if (AT8(v4, 144) != 1u) goto L27;
if (AT64(v4, 176) != 0u) goto L27;
v22 = AT32(v4, 160);
v10 = AT64(v4, 152);
v19 = 3u;
v21 = 1u;
goto L28;
L32:;
SET64(v4, 208, 0u);
SET64(v4, 216, 0u);
SET64(v4, 224, 0u);
SET64(v4, 232, 0u);
SET64(v4, 352, 0u);
SET64(v4, 360, 0u);
SET64(v4, 368, 0u);
SET64(v4, 376, 0u);
SET64(v4, 48, 0u);
SET64(v4, 56, 0u);
SET64(v4, 64, 0u);
SET64(v4, 72, 0u);
SET64(v4, 112, 0u);
SET64(v4, 120, 0u);
SET64(v4, 128, 0u);
SET64(v4, 136, 0u);
in_toml_datetime_parse_two_digits(RUD_AS v4 + 208u, a1, a3);
if (AT8(v4, 208) != 1u) goto L27;
v18 = AT8(v4, 216);
in_toml_datetime_parse_two_digits(RUD_AS v4 + 352u, AT64(v4, 224), AT64(v4, 232));
if (AT8(v4, 352) != 1u) goto L27;
v6 = AT64(v4, 376);
if (v6 == 0) goto L27;
v5 = AT64(v4, 368);
TEST(v5);
if (AT8(v5, 0) != 45u) goto L27;
v20 = AT8(v4, 360);
in_toml_datetime_parse_two_digits(RUD_AS v4 + 48u, v5 + 1u, v6 - 1u);
if (AT8(v4, 48) != 1u) goto L27;
v6 = AT64(v4, 72);
if (v6 == 0) goto L27;
v5 = AT64(v4, 64);
TEST(v5);
if (AT8(v5, 0) != 45u) goto L27;
v19 = AT8(v4, 56);
in_toml_datetime_parse_two_digits(RUD_AS v4 + 112u, v5 + 1u, v6 - 1u);
if (AT8(v4, 112) != 1u) goto L27;
v26 = AT8(v4, 120);
SET8(v4, 91, v26);
SET8(v4, 90, v19);
v27 = (v18 * 100u) + v20;
SET16(v4, 88, v27);
v6 = v4 + 88u;
v20 = 0u;
if ((s64)RUD_G0 >= (s64)16u) {
v18 = AT32(v4, 88);
if ((v18 & 65535u) > 9999u) goto L35;
v23 = v18 >> 16;
if (((v23 - 1u) & 255u) > 11u) goto L35;
if (v18 & 3u) { i0 = 28u; goto L36; }
v24 = v18 & 65535u;
if ((v24 % 100u)) { i0 = 29u; goto L36; }
i0 = (v24 % 400u) ? 28u : 29u;
L36:;
v24 = i0;
v18 = v18 >> 24;
v23 = v23 & 255u;
if (v23 <= 11u) {
if ((1u << (v23 & 31)) & 2640u) { i0 = 30u; goto L37; }
if (v23 == 2u) { i0 = v24; goto L37; }
}
i0 = 31u;
L37:;
v23 = i0;
if (v18 == 0) goto L35;
v20 = v18 <= v23;
L35:;
i0 = v20;
goto L33;
}
rud_trap();
L33:;
if (i0 == 0) goto L27;
v6 = AT64(v4, 136);
v5 = AT64(v4, 128);
FILL_FEW(v4 + 208u, 0u, 40u);
if (v6 == 0) {
j0 = 0u;
} else {
TEST(v5);
v18 = AT8(v5, 0);
if ((u32)(((u32)(v18 == 32u) | (u32)(v18 == 116u)) == 0) & (u32)(v18 != 84u)) goto L27;
in_toml_datetime_parse_partial_time(RUD_AS v4 + 208u, v5 + 1u, v6 - 1u);
if (AT8(v4, 208) != 1u) goto L27;
v6 = AT64(v4, 240);
if (v6 == 0) {
v20 = 0u;
v5 = 0u;
j0 = 0u;
goto L40;
}
v5 = AT64(v4, 232);
SET64(v4, 352, 0u);
SET64(v4, 360, 0u);
SET64(v4, 368, 0u);
SET64(v4, 376, 0u);
SET64(v4, 48, 0u);
SET64(v4, 56, 0u);
SET64(v4, 64, 0u);
SET64(v4, 72, 0u);
TEST(v5);
v18 = AT8(v5, 0);
switch (v18 - 43u) {
case 0u: goto L44;
case 1u: goto L27;
case 2u: goto L43;
default: goto L45;
}
L45:;
if ((u32)(v18 != 90u) & (u32)(v18 != 122u)) goto L27;
v20 = 0u;
v5 = 0u;
j0 = v6 - 1u;
goto L42;
L44:;
in_toml_datetime_parse_offset_minutes(RUD_AS v4 + 352u, v5 + 1u, v6 - 1u);
if (AT8(v4, 352) != 1u) goto L27;
v5 = 65536u;
v20 = AT16(v4, 360);
j0 = AT64(v4, 376);
goto L42;
L43:;
in_toml_datetime_parse_offset_minutes(RUD_AS v4 + 48u, v5 + 1u, v6 - 1u);
if (AT8(v4, 48) != 1u) goto L27;
v20 = 0u - AT16(v4, 56);
v5 = 65536u;
j0 = AT64(v4, 72);
L42:;
if (j0 != 0u) goto L27;
j0 = 1u;
L40:;
v8 = (j0 | (v5 & 65536u)) | (((u64)v20 & 65535u) << 32);
v21 = 1u;
v22 = AT32(v4, 224);
j0 = AT64(v4, 216);
}
v10 = j0;
v7 = (((((u64)v19 & 255u) << 32) | ((u64)v27 << 16)) | (((u64)v26 & 255u) << 40)) | 1u;
v19 = 3u;
goto L28;
L30:;
v18 = 0u;
FILL_FEW(v4 + 208u, 0u, 48u);
i2 = in_toml_parser_number_radix_of(RUD_AS a1, a3);
v22 = i2 == 16u ? 16u : 10u;
v5 = 0u;
L46:;
v6 = a1 + v5;
TEST(v6);
v19 = AT8(v6, 0);
v21 = 0u;
v5 = v5 + 1u;
if (a3 > v5) {
v21 = AT8(v6, 1);
}
if (v19 == 95u) {
v20 = 13u;
i0 = in_core_char_digit_value(RUD_AS v18 & 255u);
if (i0 >= v22) goto L26;
i0 = in_core_char_digit_value(RUD_AS v21);
if (i0 >= v22) goto L26;
}
v18 = v19;
if (a3 != v5) goto L46;
SET8(v4, 354, 0u);
SET16(v4, 352, 24325u);
SET64(v4, 160, 0u);
SET64(v4, 144, a1);
SET64(v4, 168, v4 + 352u);
SET64(v4, 152, a3);
j0 = in_core_iter_base_Iterator_count_af506e600b762b0d(RUD_AS v4 + 144u);
if (j0 == a3) {
in_toml_parser_number_plain_number(RUD_AS v4 + 208u, a1, a3);
goto L49;
}
v10 = v4 + 424u;
SET64(v4, 144, v10);
v13 = v4 + 152u;
v9 = a1;
v5 = a3;
L52:;
SET64(v4, 160, 0u);
SET64(v4, 152, 0u);
v11 = v7 == 0 ? 0ull : v8;
L53:;
v6 = v9;
L54:;
if (v5 == 0) goto L51;
v5 = v5 - 1u;
TEST(v6);
v18 = AT8(v6, 0);
v9 = v6 + 1u;
v6 = v9;
if (v18 == 95u) goto L54;
if (v7 != v11) {
PUT8(v7 + v10, 0, v18);
v7 = v7 + 1u;
goto L53;
}
SET64(v4, 152, v11);
SET64(v4, 160, v8);
if (v8 != v11) goto L57;
i0 = in_std_alloc_vec_Vec_grow_amortized_795f5fd3dc7a282e(RUD_AS v4 + 144u, 1u);
RUD_AGAIN
v8 = AT64(v4, 160);
v11 = AT64(v4, 152);
if (i0 | (u32)(v8 != v11)) goto L57;
i0 = in_std_alloc_vec_Vec_grow_amortized_795f5fd3dc7a282e(RUD_AS v4 + 144u, 1u);
RUD_AGAIN
if (i0 == 0) goto L56;
v8 = AT64(v4, 160);
v11 = AT64(v4, 152);
L57:;
v10 = AT64(v4, 144);
PUT8(v10 + v11, 0, v18);
v7 = v11 + 1u;
SET64(v4, 152, v7);
goto L52;
L56:;
if (!(AT64(v4, 160) == 0)) {
rud_dealloc(RUD_AS AT64(v4, 144));
RUD_AGAIN
}
v20 = 0u;
goto L26;
L51:;
in_toml_parser_number_plain_number(RUD_AS v4 + 208u, v10, v7);
if (v8 == 0) goto L49;
rud_dealloc(RUD_AS v10);
RUD_AGAIN
L49:;
v8 = AT64(v4, 244);
v22 = AT32(v4, 240);
v10 = AT64(v4, 232);
v21 = AT32(v4, 228);
v7 = AT64(v4, 220);
v25 = AT8(v4, 217);
v19 = AT8(v4, 216);
v20 = AT8(v4, 209);
if (AT8(v4, 208)) goto L26;
L28:;
SET32(v4, 288, v21);
SET64(v4, 280, v7);
a2 = AT64(v4, 284);
v20 = 0u;
v9 = 0u;
v18 = 0u;
v5 = 0u;
v6 = 0u;
v21 = 0u;
switch ((u32)((u64)v19 & 255u) - 1u) {
case 0u: case 1u: goto L23;
case 2u: goto L24;
default: goto L25;
}
L27:;
v20 = 15u;
L26:;
v5 = 0u;
v18 = v20 & 255u;
v6 = v18 ? v12 : 0ull;
a2 = v18 ? a2 : 0ull;
v21 = 0u;
v19 = v18 != 0u;
v9 = 1u;
goto L3;
L25:;
v20 = v25 & 1u;
v19 = 3u;
a2 = 0u;
goto L23;
L24:;
SET32(v4, 208, v22);
SET64(v4, 212, v8);
v18 = (u32)(v8 >> 32);
v21 = (u32)v7;
v19 = 4u;
v5 = AT64(v4, 208);
v6 = v10;
L23:;
j0 = a1 + a3;
goto L2;
L11:;
if (a3 == 0) {
TEST(a0);
SET64(a0, 0, 1u);
SET64(a0, 48, 0u);
SET32(a0, 40, 0u);
SET64(a0, 32, 0u);
SET64(a0, 24, a2);
SET64(a0, 16, a2);
SET32(a0, 12, 0u);
SET16(a0, 8, 4609u);
SET64(a0, 56, 0u);
goto L1;
}
v10 = a3 - 1u;
a2 = a2 - 1u;
a1 = a1 + 1u;
if (v18 == 91u) {
FILL_FEW(v4 + 208u, 0u, 64u);
FILL_FEW(v4 + 144u, 0u, 48u);
FILL_FEW(v4 + 48u, 0u, 40u);
TEST(v4);
SET64(v4, 136, 0u);
SET64(v4, 128, 0u);
SET64(v4, 120, 0u);
SET64(v4, 112, 0u);
SET64(v4, 408, 0u);
SET64(v4, 416, 0u);
SET64(v4, 400, v4 + 424u);
a3 = v4 + 72u;
v6 = v4 + 240u;
L63:;
in_toml_parser_text_skip_blank(RUD_AS v4 + 8u, a1, a2, 1u);
a2 = AT64(v4, 8);
a1 = AT64(v4, 16);
if (!(a1 == 0)) {
TEST(a2);
if (AT8(a2, 0) == 93u) goto L60;
}
in_toml_de_value_value(RUD_AS v4 + 208u, a2, a1, v10);
RUD_AGAIN
a1 = AT64(v4, 232);
a2 = AT64(v4, 224);
v19 = AT8(v4, 217);
v20 = AT8(v4, 216);
if (AT8(v4, 208)) goto L62;
SET64(v4, 72, AT64(v4, 240));
SET32(v4, 80, AT32(v4, 248));
SET64(v4, 64, a1);
SET64(v4, 56, a2);
SET32(v4, 52, AT32(v4, 220));
SET8(v4, 49, v19);
SET8(v4, 48, v20);
a1 = AT64(v4, 264);
a2 = AT64(v4, 256);
in_std_alloc_vec_Vec_push_38edbfb87ce47c7f(RUD_AS v4 + 144u, v4 + 400u, v4 + 48u);
RUD_AGAIN
if (AT8(v4, 144)) goto L9;
in_toml_de_value_after_element(RUD_AS v4 + 112u, a2, a1, 93u, 8u);
v20 = AT8(v4, 120);
v19 = AT8(v4, 121);
v18 = AT8(v4, 112);
a1 = (((u64)v20 & 255u) | (((u64)v19 & 255u) << 8)) | (v18 ? 0ull : (((u64)AT16(v4, 126) << 48) | ((u64)AT32(v4, 122) << 16)));
a2 = AT64(v4, 128);
if (v18 == 0) goto L63;
a1 = AT64(v4, 136);
in_std_alloc_vec_Vec_drop_f8ad6a88bf30276b(RUD_AS v4 + 400u);
RUD_AGAIN
goto L4;
L62:;
in_std_alloc_vec_Vec_drop_f8ad6a88bf30276b(RUD_AS v4 + 400u);
RUD_AGAIN
goto L4;
}
TEST(v4);
SET64(v4, 48, 0u);
SET64(v4, 56, 0u);
SET64(v4, 64, 0u);
SET64(v4, 72, 0u);
FILL_FEW(v4 + 208u, 0u, 72u);
FILL_FEW(v4 + 144u, 0u, 64u);
SET64(v4, 136, 0u);
SET64(v4, 128, 0u);
SET64(v4, 120, 0u);
SET64(v4, 112, 0u);
SET64(v4, 304, 0u);
SET64(v4, 312, 0u);
SET64(v4, 320, 0u);
v7 = v4 + 384u;
v13 = v4 + 360u;
v8 = v4 + 176u;
L65:;
in_toml_parser_text_skip_blank(RUD_AS v4 + 32u, a1, a2, 1u);
a2 = AT64(v4, 32);
a1 = AT64(v4, 40);
if (a1 == 0) goto L66;
TEST(a2);
if (AT8(a2, 0) != 125u) goto L66;
SET64(v4, 280, (u64)AT8(v4, 304));
SET64(v4, 288, AT64(v4, 312));
SET64(v4, 296, AT64(v4, 320));
in_toml_de_tables_close(RUD_AS v4 + 48u, v4 + 280u);
RUD_AGAIN
if (AT8(v4, 48) == 0) goto L8;
a2 = 0u;
v20 = 0u;
v19 = 0u;
v5 = 0u;
goto L5;
L66:;
in_toml_de_value_key_equals(RUD_AS v4 + 208u, a2, a1);
RUD_AGAIN
v19 = AT8(v4, 217);
v20 = AT8(v4, 216);
v5 = AT64(v4, 232);
a2 = AT64(v4, 224);
if (AT8(v4, 208) == 0) {
a3 = (u64)AT16(v4, 222);
v11 = AT64(v4, 256);
v14 = AT64(v4, 248);
v12 = AT64(v4, 240);
v6 = (u64)AT32(v4, 218);
v15 = AT64(v4, 272);
in_toml_de_value_value(RUD_AS v4 + 144u, AT64(v4, 264), v15, v10);
RUD_AGAIN
v9 = (((u64)v20 & 255u) | (((u64)v19 & 255u) << 8)) | ((a3 << 48) | (v6 << 16));
a3 = AT64(v4, 168);
v6 = AT64(v4, 160);
v19 = AT8(v4, 153);
v20 = AT8(v4, 152);
if (AT8(v4, 144)) goto L68;
v16 = AT64(v4, 200);
v17 = AT64(v4, 192);
v18 = AT32(v4, 156);
FILL_FEW(v13, 0u, 40u);
SET64(v4, 384, AT64(v4, 176));
SET32(v4, 392, AT32(v4, 184));
SET64(v4, 416, v11);
SET64(v4, 408, v14);
SET64(v4, 400, v12);
SET64(v4, 376, a3);
SET64(v4, 368, v6);
SET32(v4, 364, v18);
SET8(v4, 361, v19);
SET8(v4, 360, v20);
SET64(v4, 352, 0u);
in_toml_de_tables_along_dots(RUD_AS v4 + 24u, v4 + 304u, v9, a2, v4 + 400u, v4 + 352u);
RUD_AGAIN
SET64(v4, 344, v5);
SET64(v4, 336, a2);
SET64(v4, 328, v9);
v19 = AT8(v4, 25);
i0 = AT8(v4, 24);
in_std_alloc_vec_Vec_drop_95beaedac91b374b(RUD_AS v4 + 328u);
RUD_AGAIN
if (i0 == 0) goto L67;
v18 = v19 & 255u;
v5 = v18 ? v15 : 0ull;
a2 = v18 ? a1 : 0ull;
v20 = v18 != 0u;
if (AT8(v4, 304) != 1u) goto L5;
in_std_collections_btree_node_Node_destroy_dc0ad195889b9f50(RUD_AS AT64(v4, 312));
RUD_AGAIN
goto L5;
}
if (AT8(v4, 304) != 1u) goto L5;
in_std_collections_btree_node_Node_destroy_dc0ad195889b9f50(RUD_AS AT64(v4, 312));
RUD_AGAIN
goto L5;
L68:;
SET64(v4, 104, v5);
SET64(v4, 96, a2);
SET64(v4, 88, v9);
in_std_alloc_vec_Vec_drop_95beaedac91b374b(RUD_AS v4 + 88u);
RUD_AGAIN
if (!(v11 == 0)) {
rud_dealloc(RUD_AS v12);
RUD_AGAIN
}
if (AT8(v4, 304) != 1u) goto L6;
in_std_collections_btree_node_Node_destroy_dc0ad195889b9f50(RUD_AS AT64(v4, 312));
RUD_AGAIN
goto L6;
L67:;
in_toml_de_value_after_element(RUD_AS v4 + 112u, v17, v16, 125u, 9u);
v20 = AT8(v4, 120);
v19 = AT8(v4, 121);
v18 = AT8(v4, 112);
a1 = (((u64)v20 & 255u) | (((u64)v19 & 255u) << 8)) | (v18 ? 0ull : (((u64)AT16(v4, 126) << 48) | ((u64)AT32(v4, 122) << 16)));
a2 = AT64(v4, 128);
if (v18 == 0) goto L65;
v5 = AT64(v4, 136);
if (AT8(v4, 304) != 1u) goto L5;
in_std_collections_btree_node_Node_destroy_dc0ad195889b9f50(RUD_AS AT64(v4, 312));
RUD_AGAIN
goto L5;
L60:;
v5 = AT64(v4, 408);
v6 = AT64(v4, 400);
v19 = 5u;
j0 = AT64(v4, 416);
goto L7;
}
rud_trap();
L9:;
v18 = AT16(v4, 152);
v20 = 0u;
a1 = v4 + 352u;
FILL_FEW(a1, 0u, 40u);
SET16(v4, 352, v18);
SET64(v4, 356, AT64(v4, 156));
SET64(v4, 364, AT64(v4, 164));
SET64(v4, 372, AT64(v4, 172));
SET64(v4, 380, AT64(v4, 180));
in_toml_toml_value_Value_Destruct_drop(RUD_AS a1);
RUD_AGAIN
in_std_alloc_vec_Vec_drop_f8ad6a88bf30276b(RUD_AS v4 + 400u);
RUD_AGAIN
a2 = 0u;
v19 = 0u;
a1 = 0u;
goto L4;
L8:;
v5 = AT64(v4, 64);
v6 = (u64)AT8(v4, 56);
v19 = 6u;
j0 = AT64(v4, 72);
L7:;
a3 = j0;
TEST(a0);
SET64(a0, 0, 0u);
SET64(a0, 56, a1 - 1u);
SET64(a0, 48, a2 + 1u);
SET32(a0, 40, 0u);
SET64(a0, 32, a3);
SET64(a0, 24, v5);
SET64(a0, 16, v6);
SET32(a0, 12, 0u);
SET8(a0, 9, 0u);
SET8(a0, 8, v19);
goto L1;
L6:;
a2 = v6;
v5 = a3;
L5:;
TEST(a0);
SET64(a0, 48, 0u);
SET32(a0, 40, 0u);
SET64(a0, 32, 0u);
SET64(a0, 24, v5);
SET64(a0, 16, a2);
SET32(a0, 12, 0u);
SET8(a0, 9, v19);
SET8(a0, 8, v20);
SET64(a0, 0, 1u);
SET64(a0, 56, 0u);
goto L1;
L4:;
TEST(a0);
SET64(a0, 48, 0u);
SET32(a0, 40, 0u);
SET64(a0, 32, 0u);
SET64(a0, 24, a1);
SET64(a0, 16, a2);
SET32(a0, 12, 0u);
SET8(a0, 9, v19);
SET8(a0, 8, v20);
SET64(a0, 0, 1u);
SET64(a0, 56, 0u);
goto L1;
L3:;
v18 = 0u;
v12 = 0u;
j0 = 0u;
L2:;
a1 = j0;
TEST(a0);
SET64(a0, 0, v9);
SET64(a0, 56, v12);
SET64(a0, 48, a1);
SET32(a0, 40, v18);
SET64(a0, 32, v5);
SET64(a0, 24, v6);
SET64(a0, 16, a2);
SET32(a0, 12, v21);
SET8(a0, 9, v20);
SET8(a0, 8, v19);
L1:;
RUD_G0 = v4 + 432u;
}

static void in_toml_de_tables_along_header(RUD_IT u64 a0, u64 a1, u64 a2, u64 a3, u64 a4, u64 a5, u64 a6, u64 a7) {
u32 v21 = 0, v22 = 0, v23 = 0, v24 = 0, v25 = 0, v26 = 0, v27 = 0, v28 = 0, v29 = 0, v30 = 0, v31 = 0, v32 = 0;
u32 v33 = 0;
u64 v8 = 0, v9 = 0, v10 = 0, v11 = 0, v12 = 0, v13 = 0, v14 = 0, v15 = 0, v16 = 0, v17 = 0, v18 = 0, v19 = 0;
u64 v20 = 0, j0 = 0, j1 = 0;
RUD_HERE
v8 = RUD_G0 - 640u;
RUD_G0 = v8;
if ((s64)v8 >= (s64)16u) {
TEST(a7);
v20 = AT64(a7, 16);
v10 = v20 >> 8;
v25 = AT8(a7, 0);
v16 = (u64)v25 & 255u;
v27 = AT32(a7, 40);
v11 = AT64(a7, 32);
v12 = AT64(a7, 24);
v28 = AT32(a7, 12);
v29 = AT8(a7, 9);
v26 = AT8(a7, 8);
v24 = (u32)v20;
TEST(a6);
v14 = AT64(a6, 16);
v17 = AT64(a6, 8);
v15 = AT64(a6, 0);
TEST(v8);
SET64(v8, 360, 0u);
SET64(v8, 352, 0u);
SET64(v8, 344, 0u);
SET64(v8, 320, 0u);
SET64(v8, 328, 0u);
SET64(v8, 336, 0u);
FILL_FEW(v8 + 272u, 0u, 48u);
SET64(v8, 264, 0u);
SET64(v8, 256, 0u);
SET64(v8, 248, 0u);
FILL_FEW(v8 + 200u, 0u, 48u);
SET64(v8, 192, 0u);
SET64(v8, 184, 0u);
SET64(v8, 176, 0u);
SET64(v8, 168, 0u);
FILL_FEW(v8 + 112u, 0u, 56u);
SET16(v8, 108, 0u);
SET32(v8, 104, 0u);
SET64(v8, 80, 0u);
SET64(v8, 88, 0u);
SET64(v8, 96, 0u);
SET64(v8, 56, 0u);
SET64(v8, 64, 0u);
SET64(v8, 72, 0u);
if (a3 == 0) {
SET32(v8, 289, (u32)v10);
SET8(v8, 295, (u32)(v10 >> 48));
SET16(v8, 293, (u32)(v10 >> 32));
SET64(v8, 336, v14);
SET64(v8, 328, v17);
SET64(v8, 320, v15);
SET32(v8, 312, v27);
SET64(v8, 304, v11);
SET64(v8, 296, v12);
SET8(v8, 288, v24);
SET32(v8, 284, v28);
SET8(v8, 281, v29);
SET8(v8, 280, v26);
SET64(v8, 272, v16);
in_toml_de_tables_along_dots(RUD_AS v8 + 8u, a1, a4, a5, v8 + 320u, v8 + 272u);
RUD_AGAIN
v21 = AT8(v8, 9);
v23 = AT8(v8, 8);
goto L1;
}
TEST(a2);
in_std_collections_btree_map_BTreeMap_get_mut_73c392a72f38babf(RUD_AS v8 + 40u, a1, AT64(a2, 0), AT64(a2, 8));
v18 = a3 - 1u;
v19 = a2 + 24u;
if (AT8(v8, 40) == 1u) {
v9 = AT64(v8, 48);
a1 = v9 + 8u;
TEST(a1);
v31 = AT8(a1, 0);
SET8(a1, 0, 3u);
TEST(v9);
v32 = AT8(v9, 1);
v33 = AT8(v9, 0);
SET16(v9, 0, 0u);
a7 = v9 + 10u;
SET32(v8, 368, AT32(a1, 2));
SET16(v8, 372, AT16(a1, 6));
a2 = v9 + 9u;
v21 = AT8(a1, 1);
v13 = AT64(a1, 16);
a6 = AT64(a1, 24);
v23 = AT32(a1, 32);
v22 = AT32(a1, 36);
a1 = AT64(a1, 40);
a3 = AT64(v9, 16);
FILL_FEW(a2, 0u, 47u);
FILL_FEW(v8 + 504u, 0u, 40u);
FILL_FEW(v8 + 432u, 0u, 40u);
a2 = a3 >> 8;
v30 = (u32)a3;
j0 = v9 + 48u;
switch ((u32)((u64)v33 & 255u) - 1u) {
case 0u: goto L14;
case 1u: goto L13;
default: goto L10;
}
L14:;
SET32(v8, 625, (u32)a2);
SET8(v8, 631, (u32)(a2 >> 48));
SET16(v8, 629, (u32)(a2 >> 32));
SET32(v8, 513, (u32)v10);
SET8(v8, 519, (u32)(v10 >> 48));
SET16(v8, 517, (u32)(v10 >> 32));
SET64(v8, 632, v13);
SET8(v8, 624, v30);
SET64(v8, 616, (u64)v31);
SET64(v8, 560, v14);
SET64(v8, 552, v17);
SET64(v8, 544, v15);
SET32(v8, 536, v27);
SET64(v8, 528, v11);
SET64(v8, 520, v12);
SET8(v8, 512, v24);
SET32(v8, 508, v28);
SET8(v8, 505, v29);
SET8(v8, 504, v26);
SET64(v8, 496, v16);
in_toml_de_tables_along_header(RUD_AS v8 + 16u, v8 + 616u, v19, v18, a4, a5, v8 + 544u, v8 + 496u);
RUD_AGAIN
v22 = AT8(v8, 616);
if (AT8(v8, 16) == 0) {
a6 = (u64)v22 & 255u;
a4 = 0u;
v13 = AT64(v8, 632);
a2 = AT64(v8, 624);
a3 = 0u;
j1 = 0u;
goto L12;
}
v21 = AT8(v8, 17);
if (v22 != 1u) goto L9;
in_std_collections_btree_node_Node_destroy_dc0ad195889b9f50(RUD_AS AT64(v8, 624));
RUD_AGAIN
goto L9;
L13:;
SET32(v8, 601, (u32)a2);
SET8(v8, 607, (u32)(a2 >> 48));
SET16(v8, 605, (u32)(a2 >> 32));
SET32(v8, 441, (u32)v10);
SET8(v8, 447, (u32)(v10 >> 48));
SET16(v8, 445, (u32)(v10 >> 32));
SET8(v8, 593, v21);
SET8(v8, 592, v31);
SET32(v8, 594, AT32(v8, 368));
SET16(v8, 598, AT16(v8, 372));
SET64(v8, 608, v13);
SET8(v8, 600, v30);
SET64(v8, 584, a1);
SET32(v8, 580, v22);
SET32(v8, 576, v23);
SET64(v8, 488, v14);
SET64(v8, 480, v17);
SET64(v8, 472, v15);
SET32(v8, 464, v27);
SET64(v8, 456, v11);
SET64(v8, 448, v12);
SET8(v8, 440, v24);
SET32(v8, 436, v28);
SET8(v8, 433, v29);
SET8(v8, 432, v26);
SET64(v8, 424, v16);
SET64(v8, 568, a6 & 255u);
in_toml_de_tables_along_header(RUD_AS v8 + 24u, v8 + 568u, v19, v18, a4, a5, v8 + 472u, v8 + 424u);
RUD_AGAIN
if (AT8(v8, 24)) goto L11;
v32 = 0u;
a3 = AT64(v8, 576);
a4 = (u64)AT8(v8, 568);
a2 = AT64(v8, 600);
a6 = AT64(v8, 592);
j1 = AT64(v8, 584);
L12:;
SET64(v9, 48, j1);
SET8(v9, 1, v32);
v21 = AT8(v9, 9);
a1 = v9 + 8u;
v25 = AT8(v9, 8);
v23 = AT16(v9, 14);
v22 = AT32(v9, 10);
SET64(v9, 8, a6);
a1 = v9 + 16u;
a7 = AT64(v9, 16);
SET64(v9, 16, a2);
a1 = v9 + 24u;
a6 = AT64(v9, 24);
SET64(v9, 24, v13);
a1 = v9 + 32u;
a5 = AT64(v9, 32);
SET64(v9, 32, a4);
a1 = v9 + 40u;
a2 = AT64(v9, 40);
SET64(v9, 40, a3);
j0 = (u64)AT8(v9, 0);
SET8(v9, 0, v33);
SET32(v8, 104, v22);
SET16(v8, 108, v23);
a3 = a7 >> 8;
v22 = (u32)a7;
switch ((u32)j0 - 1u) {
case 0u: goto L7;
case 1u: goto L6;
default: goto L8;
}
L11:;
v21 = AT8(v8, 25);
if (AT8(v8, 568) == 1u) {
in_std_collections_btree_node_Node_destroy_dc0ad195889b9f50(RUD_AS AT64(v8, 576));
RUD_AGAIN
}
in_std_alloc_vec_Vec_drop_f8ad6a88bf30276b(RUD_AS v8 + 592u);
RUD_AGAIN
goto L9;
L10:;
if (v25) goto L17;
switch (v26 - 1u) {
case 0u: case 1u: case 2u: case 3u: goto L17;
case 4u: goto L19;
case 5u: goto L18;
default: goto L20;
}
L20:;
if (v11 == 0) goto L17;
rud_dealloc(RUD_AS v20);
RUD_AGAIN
goto L17;
L19:;
SET64(v8, 416, v11);
SET64(v8, 408, v12);
SET8(v8, 400, v24);
SET32(v8, 401, (u32)v10);
SET8(v8, 407, (u32)(v10 >> 48));
SET16(v8, 405, (u32)(v10 >> 32));
in_std_alloc_vec_Vec_drop_f8ad6a88bf30276b(RUD_AS v8 + 400u);
RUD_AGAIN
goto L17;
L18:;
if ((v24 & 255u) != 1u) goto L17;
in_std_collections_btree_node_Node_destroy_031b4c9998add48b(RUD_AS v12);
RUD_AGAIN
L17:;
if (!(v14 == 0)) {
rud_dealloc(RUD_AS v15);
RUD_AGAIN
}
v21 = 17u;
switch (v31 - 1u) {
case 0u: case 1u: case 2u: case 3u: goto L9;
case 4u: goto L22;
case 5u: goto L23;
default: goto L24;
}
L24:;
if (a6 == 0) goto L9;
rud_dealloc(RUD_AS a3);
RUD_AGAIN
goto L9;
L23:;
if ((v30 & 255u) != 1u) goto L9;
in_std_collections_btree_node_Node_destroy_031b4c9998add48b(RUD_AS v13);
RUD_AGAIN
goto L9;
L22:;
SET64(v8, 392, a6);
SET64(v8, 384, v13);
SET8(v8, 376, v30);
SET32(v8, 377, (u32)a2);
SET8(v8, 383, (u32)(a2 >> 48));
SET16(v8, 381, (u32)(a2 >> 32));
in_std_alloc_vec_Vec_drop_f8ad6a88bf30276b(RUD_AS v8 + 376u);
RUD_AGAIN
L9:;
v23 = 1u;
goto L1;
L8:;
v21 = 0u;
v23 = 0u;
switch (v25 - 1u) {
case 0u: case 1u: case 2u: case 3u: goto L1;
case 4u: goto L26;
case 5u: goto L25;
default: goto L27;
}
L27:;
if (a5 == 0) goto L2;
rud_dealloc(RUD_AS a7);
RUD_AGAIN
goto L2;
L26:;
SET64(v8, 96, a5);
SET64(v8, 88, a6);
SET8(v8, 80, v22);
SET32(v8, 81, (u32)a3);
SET8(v8, 87, (u32)(a3 >> 48));
SET16(v8, 85, (u32)(a3 >> 32));
in_std_alloc_vec_Vec_drop_f8ad6a88bf30276b(RUD_AS v8 + 80u);
RUD_AGAIN
goto L2;
L25:;
if ((v22 & 255u) != 1u) goto L2;
in_std_collections_btree_node_Node_destroy_031b4c9998add48b(RUD_AS a6);
RUD_AGAIN
goto L2;
L7:;
v21 = 0u;
if (v25 != 1u) goto L2;
in_std_collections_btree_node_Node_destroy_dc0ad195889b9f50(RUD_AS a7);
RUD_AGAIN
goto L2;
L6:;
SET32(v8, 65, (u32)a3);
SET8(v8, 71, (u32)(a3 >> 48));
SET16(v8, 69, (u32)(a3 >> 32));
SET8(v8, 57, v21);
SET8(v8, 56, v25);
SET32(v8, 58, AT32(v8, 104));
SET16(v8, 62, AT16(v8, 108));
SET64(v8, 72, a6);
SET8(v8, 64, v22);
in_std_alloc_vec_Vec_drop_f8ad6a88bf30276b(RUD_AS v8 + 56u);
RUD_AGAIN
v21 = 0u;
if ((a5 & 255u) != 1u) goto L2;
in_std_collections_btree_node_Node_destroy_dc0ad195889b9f50(RUD_AS a2);
RUD_AGAIN
goto L2;
}
SET32(v8, 217, (u32)v10);
SET8(v8, 223, (u32)(v10 >> 48));
SET16(v8, 221, (u32)(v10 >> 32));
SET64(v8, 360, 0u);
SET64(v8, 352, 0u);
SET64(v8, 344, 0u);
SET64(v8, 264, v14);
SET64(v8, 256, v17);
SET64(v8, 248, v15);
SET32(v8, 240, v27);
SET64(v8, 232, v11);
SET64(v8, 224, v12);
SET8(v8, 216, v24);
SET32(v8, 212, v28);
SET8(v8, 209, v29);
SET8(v8, 208, v26);
SET64(v8, 200, v16);
in_toml_de_tables_along_header(RUD_AS v8 + 32u, v8 + 344u, v19, v18, a4, a5, v8 + 248u, v8 + 200u);
RUD_AGAIN
if (AT8(v8, 32) == 0) {
in_std_alloc_string_methods_StringClone_clone_23d1122e78b2f742(RUD_AS v8 + 168u, a2);
RUD_AGAIN
v22 = AT8(v8, 344);
if (AT8(v8, 168)) goto L28;
SET64(v8, 136, AT64(v8, 360));
SET64(v8, 128, AT64(v8, 352));
SET64(v8, 120, (u64)v22 & 255u);
SET16(v8, 112, 1u);
v23 = in_toml_de_tables_insert(RUD_AS a1, v8 + 176u, v8 + 112u);
RUD_AGAIN
goto L1;
}
v21 = AT8(v8, 33);
v23 = 1u;
if (AT8(v8, 344) != 1u) goto L1;
in_std_collections_btree_node_Node_destroy_dc0ad195889b9f50(RUD_AS AT64(v8, 352));
RUD_AGAIN
goto L1;
L28:;
v23 = 1u;
if (v22 != 1u) goto L1;
in_std_collections_btree_node_Node_destroy_dc0ad195889b9f50(RUD_AS AT64(v8, 352));
RUD_AGAIN
goto L1;
}
rud_trap();
L2:;
v23 = 0u;
L1:;
TEST(a0);
SET8(a0, 1, v21);
SET8(a0, 0, v23);
RUD_G0 = v8 + 640u;
}

static void in_mm_problem_fault_Name_text(RUD_IT u64 a0, u32 a1) {
u64 v2 = 0;
RUD_HERE
if ((s64)RUD_G0 >= (s64)16u) {
v2 = ((u64)a1 & 255u) << 3;
TEST(a0);
SET64(a0, 8, GET_FAR64(v2, 4205552));
SET64(a0, 0, GET_FAR64(v2, 4205712));
return;
}
rud_trap();
}

static u32 in_mm_problem_keys_has_only(RUD_IT u64 a0, u64 a1, u64 a2) {
u32 v18 = 0, v19 = 0, i0 = 0;
u64 v3 = 0, v4 = 0, v5 = 0, v6 = 0, v7 = 0, v8 = 0, v9 = 0, v10 = 0, v11 = 0, v12 = 0, v13 = 0, v14 = 0;
u64 v15 = 0, v16 = 0, v17 = 0, j0 = 0, j1 = 0;
RUD_HERE
v3 = RUD_G0 - 96u;
RUD_G0 = v3;
if ((s64)v3 >= (s64)16u) {
v18 = 1u;
v13 = v3 + 88u;
TEST(a2);
if (!(AT8(a2, 0) != 1u)) {
v14 = a2 + 8u;
a2 = AT64(a2, 8);
TEST(a2);
if (AT16(a2, 2)) { j0 = 0xffffffffffffffffull; goto L2; }
v13 = a2 + 8u;
v15 = (u64)AT16(a2, 0);
v14 = 0u;
}
v18 = 0u;
j0 = 0u;
L2:;
v6 = j0;
v10 = v14;
v16 = v6;
L5:;
if (v4 < v15) {
v5 = v4 + 1u;
j0 = v13 + (v4 * 24u);
goto L6;
}
v19 = 0u;
FILL_FEW(v3 + 24u, 0u, 48u);
if ((v18 & 255u) == 1u) {
v7 = v3 + 24u;
v9 = v6;
a2 = v14;
v8 = 0u;
v6 = 0u;
v12 = 0u;
v18 = 0u;
if ((s64)RUD_G0 >= (s64)16u) {
if (v9 == 0xffffffffffffffffull) {
TEST(a2);
v9 = AT64(a2, 0);
TEST(v9);
if (AT16(v9, 2) == 1u) { j0 = 0u; goto L14; }
L16:;
a2 = v9 + 968u;
TEST(a2);
v9 = AT64(a2, 0);
TEST(v9);
if (AT16(v9, 2) != 1u) goto L16;
j0 = 0u;
goto L14;
}
v5 = v9 & 15u;
TEST(v10);
v11 = AT64(v10, 0);
TEST(v11);
if (v5 < (u64)AT16(v11, 0)) {
v12 = 1u;
v8 = v9 + 1u;
v6 = (v11 + (v5 * 40u)) + 368u;
a2 = v10;
j0 = (v11 + (v5 * 24u)) + 8u;
goto L14;
}
TEST(a2);
v8 = AT64(a2, 0);
TEST(v8);
v19 = AT16(v8, 2);
if (v19 == 1u) goto L13;
v10 = 0u;
v5 = 0u;
L18:;
v11 = (v9 >> (((((u64)v19 & 65535u) << 2) - 4u) & 63)) & 15u;
TEST(v8);
if (v11 < (u64)AT16(v8, 0)) {
v18 = 1u;
v10 = v12;
v6 = v11;
v5 = a2;
}
v12 = (v12 << 4) | v11;
a2 = (v8 + (v11 << 3)) + 968u;
TEST(a2);
v8 = AT64(a2, 0);
TEST(v8);
v19 = AT16(v8, 2);
if (v19 != 1u) goto L18;
if (v18 == 0) goto L13;
v12 = 1u;
v9 = v6 + 1u;
TEST(v5);
v8 = AT64(v5, 0);
v17 = v8 + (v6 * 24u);
j0 = v8 + (v6 * 40u);
TEST(v8);
if (AT16(v8, 2) == 1u) {
a2 = v5;
goto L20;
}
L22:;
v10 = (v10 << 4) + v9;
j1 = v9 << 3;
v9 = 0u;
a2 = (j1 + v8) + 968u;
TEST(a2);
v8 = AT64(a2, 0);
TEST(v8);
if (AT16(v8, 2) != 1u) goto L22;
L20:;
v6 = j0 + 368u;
v8 = (v10 << 4) + v9;
j0 = v17 + 8u;
L14:;
v5 = j0;
if (v8 != v16) goto L12;
TEST(v7);
SET64(v7, 0, v12);
SET64(v7, 24, 0u);
SET64(v7, 16, v6);
SET64(v7, 8, v5);
SET64(v7, 32, 0u);
SET64(v7, 40, 0u);
goto L10;
L13:;
FILL_FEW(v7, 0u, 48u);
goto L10;
L12:;
TEST(v7);
SET64(v7, 0, v12);
SET64(v7, 40, a2);
SET64(v7, 32, v8);
SET64(v7, 24, 1u);
SET64(v7, 16, v6);
SET64(v7, 8, v5);
goto L10;
}
rud_trap();
return 0;
L10:;
TEST(v3);
if (AT8(v3, 48) != 1u) {
v14 = 0u;
v6 = 0u;
v10 = 0u;
v16 = 0u;
i0 = 0u;
goto L23;
}
v10 = AT64(v3, 64);
TEST(v10);
v6 = AT64(v3, 56);
a2 = GET64(AT64(v10, 0) + ((v6 << 3) & 120u), 968);
v13 = a2 + 8u;
TEST(a2);
v15 = (u64)AT16(a2, 0);
v4 = 0u;
i0 = 1u;
L23:;
v18 = i0;
if (AT8(v3, 24) == 1u) goto L8;
v19 = v18;
}
if (v4 >= v15) { i0 = 1u; goto L4; }
v5 = v4 + 1u;
v18 = v19;
j0 = v13 + (v4 * 24u);
goto L6;
L8:;
v5 = v4;
j0 = AT64(v3, 32);
L6:;
a2 = j0;
TEST(a2);
v4 = AT64(a2, 0);
TEST(v3);
SET64(v3, 80, AT64(a2, 8));
SET64(v3, 72, v4);
a2 = a0;
v4 = a1;
L26:;
if (v4 == 0) goto L25;
TEST(a2);
in_mm_problem_fault_Name_text(RUD_AS v3 + 8u, AT8(a2, 0));
SET64(v3, 32, AT64(v3, 16));
SET64(v3, 24, AT64(v3, 8));
v4 = v4 - 1u;
a2 = a2 + 1u;
i0 = in_core_cmp_text_RefStrPartialEq_eq(RUD_AS v3 + 24u, v3 + 72u);
if (i0 == 0) goto L26;
v4 = v5;
goto L5;
L25:;
i0 = 0u;
L4:;
RUD_G0 = v3 + 96u;
return i0;
}
rud_trap();
return 0;
}

static void in_mm_problem_keys_value_at(RUD_IT u64 a0, u32 a1, u64 a2) {
u32 v12 = 0, i0 = 0;
u64 v3 = 0, v4 = 0, v5 = 0, v6 = 0, v7 = 0, v8 = 0, v9 = 0, v10 = 0, v11 = 0;
RUD_HERE
v3 = RUD_G0 - 48u;
RUD_G0 = v3;
if ((s64)v3 >= (s64)16u) {
in_mm_problem_fault_Name_text(RUD_AS v3, a1);
a1 = 0u;
TEST(a2);
if (AT8(a2, 0) != 1u) goto L2;
TEST(v3);
v8 = AT64(v3, 8);
v9 = AT64(v3, 0);
v4 = a2 + 8u;
L3:;
a2 = 0u;
TEST(v4);
v5 = AT64(v4, 0);
TEST(v5);
v7 = (u64)AT16(v5, 0);
if (!(v7 == 0)) {
a2 = v5 + 16u;
v4 = v5 + 368u;
v6 = 0u;
L7:;
v10 = GET64(a2 - 8u, 0);
TEST(a2);
v11 = AT64(a2, 0);
SET64(v3, 40, v8);
SET64(v3, 32, v9);
SET64(v3, 24, v11);
SET64(v3, 16, v10);
i0 = in_core_cmp_text_RefStrOrd_cmp(RUD_AS v3 + 32u, v3 + 16u);
v12 = i0 & 255u;
if (v12 != 2u) {
if (v12 - 1u) goto L6;
goto L4;
}
a2 = a2 + 24u;
v4 = v4 + 40u;
v6 = v6 + 1u;
if (v7 != v6) goto L7;
v6 = v7;
L6:;
a2 = v6 << 3;
}
if (AT16(v5, 2)) {
v4 = (a2 + v5) + 968u;
goto L3;
} else {
v4 = 0u;
goto L2;
}
rud_trap();
L4:;
a1 = 1u;
L2:;
TEST(a0);
SET64(a0, 8, v4);
SET8(a0, 0, a1);
RUD_G0 = v3 + 48u;
return;
}
rud_trap();
}

static void in_mm_problem_keys_array_if_any(RUD_IT u64 a0, u32 a1, u64 a2) {
u32 i1 = 0;
u64 v3 = 0, v4 = 0, j0 = 0;
RUD_HERE
v3 = RUD_G0 - 32u;
RUD_G0 = v3;
j0 = a0;
if ((s64)v3 >= (s64)16u) {
in_mm_problem_keys_value_at(RUD_AS v3 + 8u, a1, a2);
a2 = 0u;
TEST(v3);
if (AT8(v3, 8) != 1u) {
v4 = v3 + 24u;
goto L2;
}
v4 = AT64(v3, 16);
TEST(v4);
if (AT8(v4, 0) == 5u) {
a2 = AT64(v4, 16);
v4 = AT64(v4, 8);
goto L2;
}
v4 = ((u64)a1 & 255u) << 32;
a1 = 2u;
i1 = 1u;
goto L1;
}
rud_trap();
L2:;
a1 = 0u;
i1 = 0u;
L1:;
TEST(j0);
SET32(j0, 0, i1);
TEST(a0);
SET64(a0, 16, a2);
SET64(a0, 8, v4);
SET8(a0, 5, 0u);
SET8(a0, 4, a1);
RUD_G0 = v3 + 32u;
}

static void in_mm_problem_tables_id_at(RUD_IT u64 a0, u32 a1, u32 a2, u64 a3) {
u32 v10 = 0, v11 = 0, v12 = 0, v13 = 0, v14 = 0, v15 = 0, i0 = 0;
u64 v4 = 0, v5 = 0, v6 = 0, v7 = 0, v8 = 0, j0 = 0;
RUD_HERE
(void)v8;
v4 = RUD_G0 - 48u;
RUD_G0 = v4;
if ((s64)v4 >= (s64)16u) {
TEST(v4);
SET64(v4, 16, 0u);
SET64(v4, 8, 0u);
SET64(v4, 0, 0u);
v10 = a1;
v5 = RUD_G0 - 16u;
RUD_G0 = v5;
if ((s64)v5 >= (s64)16u) {
in_mm_problem_keys_value_at(RUD_AS v5, a2, a3);
v12 = 1u;
TEST(v5);
if (AT8(v5, 0) & 1u) {
a3 = AT64(v5, 8);
TEST(a3);
if (AT8(a3, 0) == 0) goto L6;
}
v11 = 2u;
i0 = a2 & 255u;
goto L5;
L6:;
v6 = AT64(a3, 16);
a3 = AT64(a3, 8);
v10 = (u32)a3;
v12 = 0u;
i0 = (u32)(a3 >> 32);
L5:;
v13 = i0;
SET32(v4, 0, v12);
SET64(v4, 16, v6);
SET32(v4, 12, v13);
SET32(v4, 8, v10);
SET8(v4, 5, 0u);
SET8(v4, 4, v11);
RUD_G0 = v5 + 16u;
goto L3;
}
rud_trap();
L3:;
if (AT8(v4, 0) == 0) {
a3 = AT64(v4, 16);
v5 = AT64(v4, 8);
SET64(v4, 32, 0u);
SET8(v4, 40, 0u);
SET16(v4, 28, 0u);
SET8(v4, 30, 0u);
v8 = v4 + 32u;
v6 = 0u;
v7 = RUD_G0 - 16u;
if ((s64)v7 >= (s64)16u) {
v11 = 1u;
if ((a3 - 1u) > 7u) { j0 = 0u; goto L11; }
L13:;
if (a3 == v6) goto L12;
j0 = v5 + v6;
v6 = v6 + 1u;
TEST(j0);
v10 = AT8(j0, 0);
if (((u32)(v10 == 45u) | (u32)(v10 == 95u)) | ((u32)(((v10 - 65u) & 255u) < 26u) | (u32)(((v10 - 48u) & 255u) < 10u))) goto L13;
j0 = 0u;
goto L11;
L12:;
TEST(v7);
SET64(v7, 8, 2314885530818453536ull);
if (!(a3 == 0)) {
COPY(v7 + 8u, v5, a3);
}
v11 = 0u;
j0 = AT64(v7, 8);
L11:;
a3 = j0;
SET8(v4, 32, v11);
SET64(v4, 33, a3);
goto L9;
}
rud_trap();
L9:;
v11 = AT8(v4, 32);
if (v11 == 0) {
SET16(v4, 28, AT16(v4, 33));
SET8(v4, 30, AT8(v4, 35));
a1 = AT8(v4, 40);
v14 = AT16(v4, 38);
v15 = AT8(v4, 37);
v10 = AT8(v4, 36);
i0 = 0u;
goto L15;
}
v10 = 2u;
i0 = a2 & 255u;
L15:;
a2 = i0;
v12 = AT8(v4, 30);
SET8(v4, 26, v12);
v13 = AT16(v4, 28);
SET16(v4, 24, v13);
TEST(a0);
SET8(a0, 0, v11);
SET16(a0, 1, v13);
SET8(a0, 3, v12);
SET32(a0, 12, a2);
SET32(a0, 8, a1);
SET16(a0, 6, v14);
SET8(a0, 5, v15);
SET8(a0, 4, v10);
goto L1;
}
TEST(a0);
SET8(a0, 0, 1u);
SET16(a0, 1, 0u);
SET8(a0, 3, 0u);
SET64(a0, 8, AT64(v4, 8));
SET16(a0, 6, 0u);
SET16(a0, 4, AT16(v4, 4));
goto L1;
}
rud_trap();
L1:;
RUD_G0 = v4 + 48u;
}

static void in_mm_problem_keys_number_at(RUD_IT u64 a0, u32 a1, u32 a2, u32 a3, u32 a4, u64 a5) {
u32 v7 = 0, v8 = 0;
u64 v6 = 0;
RUD_HERE
v6 = RUD_G0 - 16u;
RUD_G0 = v6;
if ((s64)v6 >= (s64)16u) {
in_mm_problem_keys_value_at(RUD_AS v6, a2, a5);
TEST(v6);
if ((AT8(v6, 0) & 1u) == 0) goto L3;
a5 = AT64(v6, 8);
TEST(a5);
if (AT8(a5, 0) != 1u) goto L3;
a1 = 0u;
v7 = 7u;
v8 = 1u;
a5 = AT64(a5, 8);
if (((u32)((s64)a5 < (s64)(u64)a3) | (u32)(a5 > (u64)a4)) == 0) {
a1 = (u32)a5;
v7 = a1 & 255u;
a2 = (u32)(a5 >> 8);
v8 = 0u;
a1 = a1 & 4294901760u;
}
TEST(a0);
SET32(a0, 0, v8);
SET64(a0, 8, 0u);
SET32(a0, 4, (((a2 & 255u) << 8) | a1) | v7);
goto L1;
L3:;
TEST(a0);
SET64(a0, 0, 8589934593ull);
SET32(a0, 12, a2 & 255u);
SET32(a0, 8, a1);
goto L1;
}
rud_trap();
L1:;
RUD_G0 = v6 + 16u;
}

static u32 in_mm_base_id_StoreIdPartialEq_eq(RUD_IT u64 a0, u64 a1) {
u32 i0 = 0;
RUD_HERE
if ((s64)RUD_G0 >= (s64)16u) {
TEST(a0);
TEST(a1);
i0 = ((((u32)(AT8(a0, 0) == AT8(a1, 0)) & (u32)(AT8(a0, 1) == AT8(a1, 1))) & (u32)(AT8(a0, 2) == AT8(a1, 2))) & (u32)(AT8(a0, 3) == AT8(a1, 3))) & ((((u32)(AT8(a0, 4) == AT8(a1, 4)) & (u32)(AT8(a0, 5) == AT8(a1, 5))) & (u32)(AT8(a0, 6) == AT8(a1, 6))) & (u32)(AT8(a0, 7) == AT8(a1, 7)));
return i0;
}
rud_trap();
return 0;
}

static void in_std_heap_GlobalAllocator_grow_23_mm_base_rows_RouteRow(RUD_IT u64 a0, u64 a1, u64 a2, u64 a3) {
RUD_NONE
in_byn_mgfn_shared_std_heap_GlobalAllocator_grow_483ec8513fd57e54(RUD_AS a0, a1, a2, a3, 2u, 12u);
}

static void in_mm_problem_toml_value_Value_Destruct_drop(RUD_IT u64 a0) {
u32 v7 = 0;
u64 v1 = 0, v2 = 0, v3 = 0, v4 = 0, v5 = 0, v6 = 0;
RUD_HERE
v1 = RUD_G0 - 48u;
RUD_G0 = v1;
if ((s64)v1 >= (s64)16u) {
TEST(a0);
v5 = AT64(a0, 24);
v2 = AT64(a0, 16);
v4 = AT64(a0, 8);
switch ((u32)(u64)AT8(a0, 0) - 1u) {
case 0u: case 1u: case 2u: case 3u: goto L1;
case 4u: goto L5;
case 5u: goto L4;
default: goto L6;
}
L6:;
if (v5 == 0) goto L1;
goto L2;
L5:;
if (!(v2 == 0)) {
v3 = (v1 + 8u) | 4u;
a0 = v4;
L8:;
TEST(a0);
v7 = AT16(a0, 0);
v6 = v1 + 8u;
FILL_FEW(v6, 0u, 40u);
TEST(v3);
SET64(v3, 0, AT64(a0, 4));
SET64(v3, 8, AT64(a0, 12));
SET64(v3, 16, AT64(a0, 20));
SET64(v3, 24, AT64(a0, 28));
TEST(v1);
SET16(v1, 8, v7);
a0 = a0 + 40u;
in_mm_problem_toml_value_Value_Destruct_drop(RUD_AS v6);
RUD_AGAIN
v2 = v2 - 1u;
if (v2 != 0u) goto L8;
}
if (!(v5 == 0)) goto L2;
goto L1;
L4:;
if ((v4 & 255u) != 1u) goto L1;
in_std_collections_btree_node_Node_destroy_ada23bb4fd0ecfa1(RUD_AS v2);
RUD_AGAIN
goto L1;
}
rud_trap();
L2:;
rud_dealloc(RUD_AS v4);
RUD_AGAIN
L1:;
RUD_G0 = v1 + 48u;
}

static void in_core_mem_drop_94c51b3a7359dc83(RUD_IT u64 a0) {
u32 v4 = 0, v5 = 0;
u64 v1 = 0, v2 = 0, j0 = 0;
RUD_HERE
v1 = RUD_G0 - 80u;
RUD_G0 = v1;
if ((s64)v1 >= (s64)16u) {
TEST(a0);
v4 = AT8(a0, 25);
v5 = AT8(a0, 24);
v2 = AT64(a0, 0);
TEST(v1);
j0 = AT64(a0, 16);
SET64(v1, 48, AT64(a0, 28));
SET64(v1, 56, AT64(a0, 36));
SET64(v1, 64, AT64(a0, 44));
SET64(v1, 72, AT64(a0, 52));
FILL_FEW(v1, 0u, 40u);
if (!(j0 == 0)) {
rud_dealloc(RUD_AS v2);
RUD_AGAIN
}
SET8(v1, 1, v4);
SET8(v1, 0, v5);
a0 = v1 + 48u;
SET64(v1, 4, AT64(v1, 48));
SET64(v1, 12, AT64(v1, 56));
SET64(v1, 20, AT64(v1, 64));
SET64(v1, 28, AT64(v1, 72));
in_mm_problem_toml_value_Value_Destruct_drop(RUD_AS v1);
RUD_AGAIN
RUD_G0 = v1 + 80u;
return;
}
rud_trap();
}

static void in_std_collections_btree_node_Node_destroy_ada23bb4fd0ecfa1(RUD_IT u64 a0) {
u32 v6 = 0, v7 = 0;
u64 v1 = 0, v2 = 0, v3 = 0, v4 = 0, v5 = 0, j0 = 0;
RUD_HERE
(void)v2;
v1 = RUD_G0 - 288u;
RUD_G0 = v1;
if ((s64)v1 >= (s64)16u) {
FILL_FEW(v1 + 24u, 0u, 40u);
TEST(v1);
SET64(v1, 104, 15u);
SET64(v1, 80, 15u);
SET64(v1, 136, a0);
SET64(v1, 112, a0 + 968u);
SET64(v1, 88, a0 + 368u);
SET64(v1, 64, a0 + 8u);
TEST(a0);
v6 = AT16(a0, 2);
SET64(v1, 128, v6 ? 16ull : 0ull);
v7 = AT16(a0, 0);
a0 = (u64)v7 & 65535u;
SET64(v1, 96, a0);
SET64(v1, 72, a0);
SET64(v1, 120, v6 ? (a0 + 1u) : 0ull);
if (v6) {
v4 = v1 + 112u;
if (v7) {
a0 = v1 + 88u;
v2 = v1 + 28u;
v3 = (v1 + 208u) | 4u;
L5:;
j0 = in_std_alloc_vec_Vec_remove_8c0c036898378f4f(RUD_AS v4);
in_std_collections_btree_node_Node_destroy_ada23bb4fd0ecfa1(RUD_AS j0);
RUD_AGAIN
SET64(v1, 144, 0u);
SET64(v1, 152, 0u);
SET64(v1, 160, 0u);
v5 = v1 + 208u;
FILL_FEW(v5, 0u, 40u);
in_std_alloc_vec_Vec_remove_992c4ce9cbd9eb37(RUD_AS v1 + 144u, v1 + 64u, 0u);
in_std_alloc_vec_Vec_remove_e185903fd0eadc08(RUD_AS v5, a0, 0u);
TEST(v3);
SET64(v1, 28, AT64(v3, 0));
SET64(v1, 36, AT64(v3, 8));
SET64(v1, 44, AT64(v3, 16));
SET64(v1, 52, AT64(v3, 24));
SET64(v1, 16, AT64(v1, 160));
SET64(v1, 8, AT64(v1, 152));
SET64(v1, 0, AT64(v1, 144));
SET16(v1, 24, AT16(v1, 208));
in_core_mem_drop_94c51b3a7359dc83(RUD_AS v1);
RUD_AGAIN
if (AT64(v1, 72) != 0u) goto L5;
}
j0 = in_std_alloc_vec_Vec_remove_8c0c036898378f4f(RUD_AS v4);
in_std_collections_btree_node_Node_destroy_ada23bb4fd0ecfa1(RUD_AS j0);
RUD_AGAIN
rud_dealloc(RUD_AS AT64(v1, 136));
RUD_AGAIN
goto L2;
}
a0 = v1 + 64u;
in_std_collections_btree_row_Row_reverse_ff41410e3cb3b3e8(RUD_AS a0);
COPY_FEW(v1 + 208u, a0, 80u);
FILL_FEW(v1 + 144u, 0u, 64u);
if (!(AT64(v1, 216) == 0)) {
L7:;
a0 = v1 + 144u;
in_std_collections_btree_row_Row_pop_ff41410e3cb3b3e8(RUD_AS a0, v1 + 208u);
in_core_mem_drop_94c51b3a7359dc83(RUD_AS a0);
RUD_AGAIN
if (AT64(v1, 216) != 0u) goto L7;
}
rud_dealloc(RUD_AS AT64(v1, 280));
RUD_AGAIN
L2:;
RUD_G0 = v1 + 288u;
return;
}
rud_trap();
}

static void in_mm_store_ring_HeapCircularBufferStoredPacketQueue_with_room(RUD_IT u64 a0, u32 a1) {
u32 i1 = 0;
u64 v2 = 0, v3 = 0, v4 = 0, j0 = 0;
RUD_HERE
v2 = RUD_G0 - 32u;
RUD_G0 = v2;
if ((s64)v2 >= (s64)16u) {
v3 = (u64)a1;
in_std_heap_GlobalAllocator_allocate(RUD_AS v2, v3 * 40u, 8u);
RUD_AGAIN
j0 = a0;
TEST(v2);
if (AT8(v2, 0) == 0) {
v4 = AT64(v2, 8);
SET64(v2, 24, 0u);
SET64(v2, 16, 0u);
i1 = 0u;
goto L2;
}
SET64(v2, 24, 0u);
SET64(v2, 16, 0u);
v3 = 0u;
i1 = 1u;
L2:;
TEST(j0);
SET8(j0, 0, i1);
TEST(a0);
SET64(a0, 16, v3);
SET64(a0, 8, v4);
SET64(a0, 24, AT64(v2, 16));
SET64(a0, 32, AT64(v2, 24));
RUD_G0 = v2 + 32u;
return;
}
rud_trap();
}

static void in_std_alloc_vec_Vec_with_capacity_384c51600a7917bd(RUD_IT u64 a0, u64 a1) {
u64 v2 = 0, v3 = 0;
RUD_HERE
v2 = RUD_G0 - 32u;
RUD_G0 = v2;
if ((s64)v2 >= (s64)16u) {
if (a1 == 0) {
v3 = v2 + 28u;
a1 = 0u;
goto L2;
}
in_std_heap_GlobalAllocator_allocate(RUD_AS v2 + 8u, a1 << 2, 4u);
RUD_AGAIN
TEST(v2);
if (AT8(v2, 8) == 0) {
v3 = AT64(v2, 16);
goto L2;
}
TEST(a0);
SET8(a0, 0, 1u);
SET64(a0, 8, 0u);
SET64(a0, 16, 0u);
SET64(a0, 24, 0u);
goto L1;
}
rud_trap();
L2:;
TEST(a0);
SET8(a0, 0, 0u);
SET64(a0, 24, a1);
SET64(a0, 16, 0u);
SET64(a0, 8, v3);
L1:;
RUD_G0 = v2 + 32u;
}

static void in_std_alloc_arc_Arc_drop_c3b6ee2ab0dfb523(RUD_IT u64 a0) {
u64 v1 = 0, v2 = 0, j0 = 0, j1 = 0;
RUD_HERE
v2 = RUD_G0;
if ((s64)v2 >= (s64)16u) {
TEST(a0);
v1 = AT64(a0, 0);
SET64(a0, 0, v1 - 1u);
if (v1 != 1u) goto L2;
j0 = AT64(a0, 8);
j1 = AT64(a0, 24);
rud_dealloc(RUD_AS a0);
RUD_AGAIN
if (j1 == 0) goto L2;
rud_dealloc(RUD_AS j0);
RUD_AGAIN
L2:;
RUD_G0 = v2;
return;
}
rud_trap();
}

static void in_std_alloc_vec_Vec_drop_eb57a1c6c018074a(RUD_IT u64 a0) {
u64 v1 = 0, v2 = 0, v3 = 0, j0 = 0;
RUD_HERE
v3 = RUD_G0;
if ((s64)v3 >= (s64)16u) {
TEST(a0);
v1 = AT64(a0, 0);
v2 = AT64(a0, 8);
j0 = AT64(a0, 16);
if (!(v2 == 0)) {
a0 = v1;
L3:;
TEST(a0);
if (AT8(a0, 0)) {
in_std_alloc_arc_Arc_drop_c3b6ee2ab0dfb523(RUD_AS AT64(a0, 40));
RUD_AGAIN
}
a0 = a0 + 48u;
v2 = v2 - 1u;
if (v2 != 0u) goto L3;
}
if (!(j0 == 0)) {
rud_dealloc(RUD_AS v1);
RUD_AGAIN
}
RUD_G0 = v3;
return;
}
rud_trap();
}

static void in_mm_store_table_BlockTablePacketQueue_with_room(RUD_IT u64 a0, u32 a1) {
u32 v14 = 0;
u64 v2 = 0, v3 = 0, v4 = 0, v5 = 0, v6 = 0, v7 = 0, v8 = 0, v9 = 0, v10 = 0, v11 = 0, v12 = 0, v13 = 0;
u64 j0 = 0;
RUD_HERE
v2 = RUD_G0 - 144u;
RUD_G0 = v2;
if ((s64)v2 >= (s64)16u) {
TEST(v2);
SET64(v2, 96, 0u);
SET64(v2, 88, 0u);
SET64(v2, 80, 0u);
SET64(v2, 72, 0u);
SET64(v2, 24, 0u);
SET64(v2, 32, 0u);
SET64(v2, 40, 0u);
v3 = (u64)a1;
if (a1) {
in_std_heap_GlobalAllocator_allocate(RUD_AS v2 + 8u, v3 * 48u, 8u);
RUD_AGAIN
if (AT8(v2, 8)) goto L7;
j0 = AT64(v2, 16);
} else {
j0 = v2 + 136u;
}
v5 = j0;
SET64(v2, 128, 0u);
SET64(v2, 120, 0u);
SET64(v2, 112, 0u);
SET64(v2, 104, 0u);
in_std_alloc_vec_Vec_with_capacity_384c51600a7917bd(RUD_AS v2 + 104u, v3);
RUD_AGAIN
if (AT8(v2, 104)) goto L6;
v9 = AT64(v2, 128);
v12 = AT64(v2, 120);
v10 = AT64(v2, 112);
in_std_alloc_vec_Vec_with_capacity_384c51600a7917bd(RUD_AS v2 + 72u, v3);
RUD_AGAIN
if (AT8(v2, 72)) goto L5;
v13 = AT64(v2, 96);
v6 = AT64(v2, 88);
v11 = AT64(v2, 80);
if (a1) goto L4;
j0 = 0u;
goto L3;
L7:;
TEST(a0);
SET8(a0, 0, 1u);
FILL_FEW(a0 + 8u, 0u, 88u);
goto L1;
L6:;
SET64(v2, 64, v3);
SET64(v2, 56, 0u);
SET64(v2, 48, v5);
in_std_alloc_vec_Vec_drop_eb57a1c6c018074a(RUD_AS v2 + 48u);
RUD_AGAIN
TEST(a0);
SET8(a0, 0, 1u);
FILL_FEW(a0 + 8u, 0u, 88u);
goto L1;
L5:;
if (!(v9 == 0)) {
rud_dealloc(RUD_AS v10);
RUD_AGAIN
}
SET64(v2, 40, v3);
SET64(v2, 32, 0u);
SET64(v2, 24, v5);
in_std_alloc_vec_Vec_drop_eb57a1c6c018074a(RUD_AS v2 + 24u);
RUD_AGAIN
TEST(a0);
SET8(a0, 0, 1u);
FILL_FEW(a0 + 8u, 0u, 88u);
goto L1;
L4:;
v4 = v11 + (v6 << 2);
v8 = v5;
L10:;
FILL_FEW(v8, 0u, 48u);
TEST(v4);
SET32(v4, 0, v14);
v8 = v8 + 48u;
v4 = v4 + 4u;
v7 = v7 - 1u;
v14 = v14 + 1u;
if (a1 != v14) goto L10;
v6 = v6 - v7;
j0 = 0ull - v7;
L3:;
v4 = j0;
TEST(a0);
SET8(a0, 0, 0u);
SET64(a0, 56, 0u);
SET64(a0, 48, v9);
SET64(a0, 40, v12);
SET64(a0, 32, v10);
SET64(a0, 24, v3);
SET64(a0, 16, v4);
SET64(a0, 8, v5);
SET64(a0, 64, 0u);
SET64(a0, 88, v13);
SET64(a0, 80, v6);
SET64(a0, 72, v11);
goto L1;
}
rud_trap();
L1:;
RUD_G0 = v2 + 144u;
}

static void in_mm_store_any_AnyStore_new(RUD_IT u64 a0, u32 a1, u32 a2) {
u64 v3 = 0, v4 = 0, v5 = 0, v6 = 0, v7 = 0;
RUD_HERE
v3 = RUD_G0 - 288u;
RUD_G0 = v3;
if ((s64)v3 >= (s64)16u) {
FILL_FEW(v3 + 112u, 0u, 48u);
if ((a1 & 255u) == 0) {
v4 = v3 + 192u;
FILL_FEW(v4, 0u, 40u);
in_mm_store_ring_HeapCircularBufferStoredPacketQueue_with_room(RUD_AS v4, a2);
RUD_AGAIN
TEST(v3);
if (AT8(v3, 192) == 0) {
v5 = AT64(v3, 224);
SET64(v3, 104, v5);
v6 = AT64(v3, 216);
SET64(v3, 96, v6);
v7 = AT64(v3, 208);
SET64(v3, 88, v7);
v4 = AT64(v3, 200);
SET64(v3, 80, v4);
SET64(v3, 160, v4);
SET64(v3, 168, v7);
SET64(v3, 176, v6);
SET64(v3, 184, v5);
v4 = 0u;
goto L4;
}
TEST(a0);
SET8(a0, 0, 1u);
FILL_FEW(a0 + 8u, 0u, 104u);
goto L2;
}
v4 = v3 + 192u;
FILL_FEW(v4, 0u, 96u);
in_mm_store_table_BlockTablePacketQueue_with_room(RUD_AS v4, a2);
RUD_AGAIN
TEST(v3);
if (AT8(v3, 192)) goto L3;
SET64(v3, 72, AT64(v3, 224));
SET64(v3, 64, AT64(v3, 216));
SET64(v3, 56, AT64(v3, 208));
SET64(v3, 48, AT64(v3, 200));
v4 = AT64(v3, 232);
COPY_FEW(v3, v3 + 240u, 48u);
SET64(v3, 160, AT64(v3, 48));
SET64(v3, 168, AT64(v3, 56));
SET64(v3, 176, AT64(v3, 64));
SET64(v3, 184, AT64(v3, 72));
COPY_FEW(v3 + 112u, v3, 48u);
L4:;
TEST(a0);
SET8(a0, 0, 0u);
SET64(a0, 16, AT64(v3, 160));
SET64(a0, 24, AT64(v3, 168));
SET64(a0, 32, AT64(v3, 176));
SET64(a0, 40, AT64(v3, 184));
SET64(a0, 48, v4);
SET64(a0, 8, (u64)a1 & 255u);
COPY_FEW(a0 + 56u, v3 + 112u, 48u);
SET64(a0, 104, 0u);
goto L2;
L3:;
TEST(a0);
SET8(a0, 0, 1u);
FILL_FEW(a0 + 8u, 0u, 104u);
L2:;
RUD_G0 = v3 + 288u;
return;
}
rud_trap();
}

static void in_std_alloc_vec_Vec_push_1546441aeb499ef3(RUD_IT u64 a0, u64 a1, u64 a2) {
u32 v9 = 0, i0 = 0;
u64 v3 = 0, v4 = 0, v5 = 0, v6 = 0, v7 = 0, v8 = 0, j0 = 0, j1 = 0;
RUD_HERE
v3 = RUD_G0 - 192u;
RUD_G0 = v3;
COPY_FEW(v3, a2, 192u);
if ((s64)v3 >= (s64)16u) {
v8 = a1 + 8u;
TEST(v8);
a2 = AT64(v8, 0);
if (a2 == AT64(v8, 8)) {
a2 = RUD_G0 - 32u;
RUD_G0 = a2;
if ((s64)a2 >= (s64)16u) {
v6 = AT64(v8, 0);
if (v6 == 0xffffffffffffffffull) goto L7;
v4 = (v6 > 3u ? v6 : 3ull) + 1u;
v5 = AT64(v8, 8);
v7 = v5 << 1;
v7 = v4 > v7 ? v4 : v7;
v4 = v5 < 4611686018427387904ull ? v7 : v4;
if (v4 > 48038396025285290ull) goto L7;
j0 = a1;
if (!(v5 == 0)) {
TEST(a1);
v5 = AT64(a1, 0);
TEST(a2);
SET64(a2, 24, 0u);
SET64(a2, 16, 0u);
rud_realloc(RUD_AS a2 + 16u, v5, v6 * 192u, v4 * 192u, 8u);
RUD_AGAIN
if (AT8(a2, 16) == 0) goto L7;
j1 = AT64(a2, 24);
goto L8;
}
in_std_heap_GlobalAllocator_allocate(RUD_AS a2, v7 * 192u, 8u);
RUD_AGAIN
TEST(a2);
if (AT8(a2, 0)) goto L7;
j1 = AT64(a2, 8);
L8:;
TEST(j0);
SET64(j0, 0, j1);
SET64(v8, 8, v4);
v9 = 1u;
L7:;
RUD_G0 = a2 + 32u;
i0 = v9;
goto L5;
}
rud_trap();
L5:;
if (i0 == 0) goto L3;
a2 = AT64(v8, 0);
}
TEST(a1);
COPY_FEW(AT64(a1, 0) + (a2 * 192u), v3, 192u);
SET64(v8, 0, a2 + 1u);
TEST(a0);
SET8(a0, 0, 0u);
FILL_FEW(a0 + 8u, 0u, 192u);
goto L2;
L3:;
TEST(a0);
SET8(a0, 0, 1u);
COPY_FEW(a0 + 8u, v3, 192u);
L2:;
RUD_G0 = v3 + 192u;
return;
}
rud_trap();
}

static void in_circular_buffer_heap_HeapCircularBuffer_drop_e7afb5b3a14eae53(RUD_IT u64 a0) {
u64 v1 = 0, v2 = 0, v3 = 0, v4 = 0, v5 = 0, v6 = 0, v7 = 0, v8 = 0;
RUD_HERE
v8 = RUD_G0;
if ((s64)v8 >= (s64)16u) {
TEST(a0);
v3 = AT64(a0, 0);
v2 = AT64(a0, 16);
if (v2 == 0) goto L2;
v4 = AT64(a0, 8);
v5 = AT64(a0, 24);
v1 = v4 > v5 ? 0ull : v4;
a0 = v5 - v1;
v6 = v4 - a0;
v7 = v2 > v6 ? v6 : v2;
if (a0 != v4) {
a0 = (((v5 * 40u) - (v1 * 40u)) + v3) + 32u;
v1 = v7;
L4:;
TEST(a0);
in_std_alloc_arc_Arc_drop_c3b6ee2ab0dfb523(RUD_AS AT64(a0, 0));
RUD_AGAIN
a0 = a0 + 40u;
v1 = v1 - 1u;
if (v1 != 0u) goto L4;
}
if (v2 <= v6) goto L2;
v1 = v2 - v7;
a0 = v3 + 32u;
L5:;
TEST(a0);
in_std_alloc_arc_Arc_drop_c3b6ee2ab0dfb523(RUD_AS AT64(a0, 0));
RUD_AGAIN
a0 = a0 + 40u;
v1 = v1 - 1u;
if (v1 != 0u) goto L5;
L2:;
rud_dealloc(RUD_AS v3);
RUD_AGAIN
RUD_G0 = v8;
return;
}
rud_trap();
}

static void in_mm_memory_mm_desk_held_Held_Destruct_drop(RUD_IT u64 a0) {
u64 v1 = 0, v2 = 0, v3 = 0, v5 = 0, j0 = 0, j1 = 0;
RUD_HERE
(void)v2;
v1 = RUD_G0 - 32u;
RUD_G0 = v1;
if ((s64)v1 >= (s64)16u) {
TEST(a0);
v3 = AT64(a0, 48);
v2 = a0 + 24u;
if (AT8(a0, 16) == 0) {
TEST(v1);
SET64(v1, 24, v3);
SET64(v1, 16, AT64(a0, 40));
SET64(v1, 8, AT64(a0, 32));
SET64(v1, 0, AT64(a0, 24));
in_circular_buffer_heap_HeapCircularBuffer_drop_e7afb5b3a14eae53(RUD_AS v1);
RUD_AGAIN
goto L2;
}
v5 = AT64(a0, 88);
TEST(v1);
j0 = AT64(a0, 104);
j1 = AT64(a0, 64);
SET64(v1, 16, AT64(a0, 40));
SET64(v1, 8, AT64(a0, 32));
SET64(v1, 0, AT64(a0, 24));
in_std_alloc_vec_Vec_drop_eb57a1c6c018074a(RUD_AS v1);
RUD_AGAIN
if (!(j1 == 0)) {
rud_dealloc(RUD_AS v3);
RUD_AGAIN
}
if (j0 == 0) goto L2;
rud_dealloc(RUD_AS v5);
RUD_AGAIN
L2:;
RUD_G0 = v1 + 32u;
return;
}
rud_trap();
}

static u32 in_std_alloc_vec_Vec_move_to_98cf589476e368ff(RUD_IT u64 a0, u64 a1) {
u32 v4 = 0, v5 = 0;
u64 v2 = 0, v3 = 0, j0 = 0;
RUD_HERE
v2 = RUD_G0 - 32u;
RUD_G0 = v2;
if ((s64)v2 >= (s64)16u) {
if (a1 >= 768614336404564651ull) goto L2;
TEST(a0);
if (!(AT64(a0, 16) == 0)) {
in_std_heap_GlobalAllocator_grow_23_mm_base_rows_RouteRow(RUD_AS v2 + 16u, AT64(a0, 0), AT64(a0, 8), a1);
RUD_AGAIN
TEST(v2);
v5 = AT8(v2, 16);
j0 = AT64(v2, 24);
goto L3;
}
in_std_heap_GlobalAllocator_allocate(RUD_AS v2, a1 * 12u, 2u);
RUD_AGAIN
TEST(v2);
v5 = AT8(v2, 0);
j0 = v5 ? 0ull : AT64(v2, 8);
L3:;
v3 = j0;
if (v5) goto L2;
SET64(a0, 16, a1);
SET64(a0, 0, v3);
v4 = 1u;
L2:;
RUD_G0 = v2 + 32u;
return v4;
}
rud_trap();
return 0;
}

static u32 in_mm_base_rows_RouteRowOrd_cmp(RUD_IT u64 a0, u64 a1) {
u32 v2 = 0, v3 = 0, v4 = 0;
u64 v5 = 0;
RUD_HERE
if ((s64)RUD_G0 >= (s64)16u) {
TEST(a0);
v2 = AT16(a0, 0);
TEST(a1);
v3 = AT16(a1, 0);
if (v2 == v3) {
v2 = AT8(a0, 2);
v3 = AT8(a1, 2);
if (v2 != v3) goto L1;
v2 = AT8(a0, 3);
v3 = AT8(a1, 3);
if (v2 == v3) goto L3;
goto L1;
}
goto L1;
L3:;
v5 = a1 + 4u;
a0 = a0 + 4u;
a1 = 0u;
v2 = 0u;
L5:;
v2 = v2 | (u32)(GET8(a0 + a1, 0) != GET8(a1 + v5, 0));
a1 = a1 + 1u;
if (a1 != 8u) goto L5;
v3 = 1u;
if ((v2 & 1u) == 0) goto L6;
a1 = 0u;
L7:;
v2 = GET8(a0 + a1, 0);
v4 = GET8(a1 + v5, 0);
if (v2 == v4) {
a1 = a1 + 1u;
if (a1 != 8u) goto L7;
goto L6;
}
v3 = v2 < v4 ? 0u : 2u;
L6:;
return v3;
}
rud_trap();
return 0;
L1:;
return v2 < v3 ? 0u : 2u;
}

static void in_mm_control_table_place_of(RUD_IT u64 a0, u64 a1, u64 a2, u64 a3) {
u32 v7 = 0, i0 = 0, i2 = 0;
u64 v4 = 0, v5 = 0, v6 = 0, j0 = 0;
RUD_HERE
v5 = RUD_G0;
if ((s64)v5 >= (s64)16u) {
if (a2 <= 1u) {
v7 = 1u;
if ((u32)a2 - 1u) goto L2;
goto L3;
}
L5:;
v6 = a2 >> 1;
j0 = v4;
v4 = v6 + v4;
i2 = in_mm_base_rows_RouteRowOrd_cmp(RUD_AS a1 + (v4 * 12u), a3);
v4 = (i2 & 255u) == 2u ? j0 : v4;
a2 = a2 - v6;
if (a2 > 1u) goto L5;
L3:;
v7 = 0u;
a2 = v4;
i0 = in_mm_base_rows_RouteRowOrd_cmp(RUD_AS a1 + (a2 * 12u), a3);
switch ((i0 & 255u) - 1u) {
case 0u: goto L2;
case 1u: goto L6;
default: goto L7;
}
L7:;
a2 = a2 + 1u;
L6:;
v7 = 1u;
L2:;
TEST(a0);
SET64(a0, 8, a2);
SET8(a0, 0, v7);
RUD_G0 = v5;
return;
}
rud_trap();
}

static void in_std_alloc_vec_Vec_put_at_98cf589476e368ff(RUD_IT u64 a0, u64 a1, u64 a2) {
u64 v3 = 0, v4 = 0, v5 = 0, v6 = 0, v7 = 0, v8 = 0, v9 = 0, v10 = 0, v11 = 0, j0 = 0;
RUD_HERE
v6 = RUD_G0 - 16u;
TEST(a2);
TEST(v6);
SET32(v6, 8, AT32(a2, 8));
SET64(v6, 0, AT64(a2, 0));
if ((s64)v6 >= (s64)16u) {
a2 = a0 + 8u;
TEST(a2);
v4 = AT64(a2, 0);
SET64(a2, 0, 0u);
a2 = a0 + 16u;
TEST(a2);
v11 = AT64(a2, 0);
SET64(a2, 0, 0u);
TEST(a0);
v5 = AT64(a0, 0);
a2 = a1 + 1u;
if (a2 == 0) {
v7 = v4 + 1u;
if (v7 < 171u) goto L3;
a2 = 0u;
v8 = v5;
L6:;
v9 = a2;
if (!(v9 == 0)) {
a2 = 2040u;
L9:;
v3 = a2 + v8;
v10 = v3 - 12u;
v3 = v3 - 24u;
TEST(v3);
SET32(v3, 20, AT32(v3, 8));
SET64(v3, 12, AT64(v3, 0));
a2 = a2 - 12u;
if (a2 != 0u) goto L9;
goto L7;
}
a2 = 0u;
L10:;
v10 = a2 + v8;
v3 = v10 - 12u;
TEST(v3);
SET32(v3, 20, AT32(v3, 8));
SET64(v3, 12, AT64(v3, 0));
a2 = a2 + 12u;
if (a2 != 2040u) goto L10;
L7:;
v8 = v8 + 2040u;
a2 = v9 + 170u;
v3 = v7 - a2;
if (v3 > 170u) goto L6;
if (a2 == 0) { j0 = a2 * 12u; goto L2; }
if (a2 == v7) goto L1;
v3 = (v4 - v9) - 169u;
a2 = ((v4 * 12u) + v5) - 12u;
L11:;
TEST(a2);
SET32(a2, 20, AT32(a2, 8));
SET64(a2, 12, AT64(a2, 0));
a2 = a2 - 12u;
v3 = v3 - 1u;
if (!(v3 == 0)) goto L11;
goto L1;
}
if (a1 == v4) goto L1;
v3 = v4 - a1;
a2 = ((v4 * 12u) + v5) - 12u;
L12:;
TEST(a2);
SET32(a2, 20, AT32(a2, 8));
SET64(a2, 12, AT64(a2, 0));
a2 = a2 - 12u;
v3 = v3 - 1u;
if (v3 != 0u) goto L12;
goto L1;
}
rud_trap();
L3:;
v3 = v7;
j0 = a2 * 12u;
L2:;
if (v7 == 0) goto L1;
a2 = (j0 + v5) - 12u;
L13:;
TEST(a2);
SET32(a2, 20, AT32(a2, 8));
v9 = a2 + 12u;
SET64(a2, 12, AT64(a2, 0));
a2 = v9;
v3 = v3 - 1u;
if (!(v3 == 0)) goto L13;
L1:;
a1 = v5 + (a1 * 12u);
TEST(a1);
SET32(a1, 8, AT32(v6, 8));
SET64(a1, 0, AT64(v6, 0));
SET64(a0, 16, v11);
SET64(a0, 8, v4 + 1u);
SET64(a0, 0, v5);
}

static u32 in_std_alloc_vec_Vec_grow_amortized_98cf589476e368ff(RUD_IT u64 a0) {
u32 v4 = 0;
u64 v1 = 0, v2 = 0, v3 = 0, j0 = 0;
RUD_HERE
v2 = RUD_G0;
if ((s64)v2 >= (s64)16u) {
TEST(a0);
v1 = AT64(a0, 8);
if (v1 == 0xffffffffffffffffull) {
goto L1;
}
v1 = (v1 > 3u ? v1 : 3ull) + 1u;
j0 = a0;
a0 = AT64(a0, 16);
v3 = a0 << 1;
v4 = in_std_alloc_vec_Vec_move_to_98cf589476e368ff(RUD_AS j0, a0 < 4611686018427387904ull ? (v1 > v3 ? v1 : v3) : v1);
RUD_AGAIN
goto L1;
}
rud_trap();
return 0;
L1:;
RUD_G0 = v2;
return v4;
}

static void in_mm_control_table_ControlTable_add(RUD_IT u64 a0, u64 a1, u64 a2) {
u32 v7 = 0, i1 = 0;
u64 v3 = 0, v4 = 0, v5 = 0, v6 = 0, j0 = 0;
RUD_HERE
v3 = RUD_G0 - 64u;
RUD_G0 = v3;
if ((s64)v3 < (s64)16u) goto L1;
TEST(a2);
TEST(v3);
SET32(v3, 24, AT32(a2, 8));
SET64(v3, 16, AT64(a2, 0));
TEST(a1);
v4 = AT64(a1, 8);
in_mm_control_table_place_of(RUD_AS v3, AT64(a1, 0), v4, v3 + 16u);
j0 = a0;
if (AT8(v3, 0) == 0) { i1 = 0u; goto L2; }
if (v4 == 256u) { i1 = 1u; goto L2; }
v5 = AT64(v3, 8);
SET64(v3, 48, AT64(a2, 0));
SET32(v3, 56, AT32(a2, 8));
v6 = AT64(a1, 16);
if (v6 > v4) {
SET32(v3, 40, AT32(a2, 8));
SET64(v3, 32, AT64(a2, 0));
in_std_alloc_vec_Vec_put_at_98cf589476e368ff(RUD_AS a1, v5, v3 + 32u);
goto L3;
}
if (v4 == v6) {
i1 = in_std_alloc_vec_Vec_grow_amortized_98cf589476e368ff(RUD_AS a1);
RUD_AGAIN
if (i1 == 0) goto L1;
}
in_std_alloc_vec_Vec_put_at_98cf589476e368ff(RUD_AS a1, v5, v3 + 48u);
L3:;
i1 = 0u;
L2:;
v7 = i1;
TEST(j0);
SET8(j0, 1, v7);
TEST(a0);
SET8(a0, 0, v7);
RUD_G0 = v3 + 64u;
return;
L1:;
rud_trap();
}

static void in_std_alloc_vec_Vec_drop_d529bc2ce50a9423(RUD_IT u64 a0) {
u64 v1 = 0, v2 = 0, v3 = 0, j0 = 0;
RUD_HERE
v1 = RUD_G0 - 192u;
RUD_G0 = v1;
if ((s64)v1 >= (s64)16u) {
TEST(a0);
v2 = AT64(a0, 0);
v3 = AT64(a0, 8);
j0 = AT64(a0, 16);
if (!(v3 == 0)) {
a0 = v2;
L3:;
COPY_FEW(v1, a0, 192u);
a0 = a0 + 192u;
in_mm_memory_mm_desk_held_Held_Destruct_drop(RUD_AS v1);
RUD_AGAIN
v3 = v3 - 1u;
if (v3 != 0u) goto L3;
}
if (!(j0 == 0)) {
rud_dealloc(RUD_AS v2);
RUD_AGAIN
}
RUD_G0 = v1 + 192u;
return;
}
rud_trap();
}

static void in_mm_packet_lent_LentPacket_packet_in_block(RUD_IT u64 a0, u64 a1) {
u32 v14 = 0, v15 = 0, i0 = 0;
u64 v2 = 0, v3 = 0, v4 = 0, v5 = 0, v6 = 0, v7 = 0, v8 = 0, v9 = 0, v10 = 0, v11 = 0, v12 = 0, v13 = 0;
RUD_HERE
v2 = RUD_G0 - 48u;
RUD_G0 = v2;
if ((s64)v2 >= (s64)16u) {
TEST(a1);
v4 = AT64(a1, 32);
v8 = AT64(a1, 24);
TEST(v2);
SET64(v2, 40, 0u);
SET64(v2, 32, 0u);
v9 = 1013u;
rud_alloc(RUD_AS v2 + 32u, 1013u, 1u);
RUD_AGAIN
if ((AT8(v2, 32) & 1u) == 0) goto L4;
v7 = AT64(v2, 40);
SET64(v2, 24, 1013u);
SET64(v2, 16, 0u);
SET64(v2, 8, v7);
if (v4 >= 1014u) {
i0 = in_std_alloc_vec_Vec_grow_amortized_795f5fd3dc7a282e(RUD_AS v2 + 8u, v4);
RUD_AGAIN
if (i0 == 0) goto L5;
v7 = AT64(v2, 8);
v10 = AT64(v2, 16);
v9 = AT64(v2, 24);
}
v5 = v7 + v10;
if (v4 > (v5 - v8)) {
v11 = v4 & 3u;
if (v4 >= 4u) {
v6 = v4 & 0xfffffffffffffffcull;
L10:;
v12 = v3 + v5;
v13 = v3 + v8;
TEST(v13);
TEST(v12);
SET8(v12, 0, AT8(v13, 0));
SET8(v12, 1, AT8(v13, 1));
SET8(v12, 2, AT8(v13, 2));
SET8(v12, 3, AT8(v13, 3));
v3 = v3 + 4u;
if (v6 != v3) goto L10;
if (v11 == 0) goto L7;
}
v6 = v3 + v8;
v3 = v7 + (v3 + v10);
L11:;
TEST(v6);
TEST(v3);
SET8(v3, 0, AT8(v6, 0));
v3 = v3 + 1u;
v6 = v6 + 1u;
v11 = v11 - 1u;
if (v11 != 0u) goto L11;
goto L7;
}
if (v4 == 0) goto L7;
COPY(v5, v8, v4);
L7:;
SET64(v2, 40, 0u);
SET64(v2, 32, 0u);
rud_alloc(RUD_AS v2 + 32u, 32u, 8u);
RUD_AGAIN
if (AT8(v2, 32) & 1u) goto L3;
if (v9 == 0) goto L4;
rud_dealloc(RUD_AS v7);
RUD_AGAIN
goto L4;
L5:;
if (AT64(v2, 24) == 0) goto L4;
rud_dealloc(RUD_AS AT64(v2, 8));
RUD_AGAIN
L4:;
TEST(a0);
SET8(a0, 0, 1u);
SET64(a0, 8, 0u);
SET64(a0, 16, 0u);
SET64(a0, 24, 0u);
SET64(a0, 32, 0u);
goto L2;
L3:;
v5 = AT64(v2, 40);
TEST(v5);
SET64(v5, 24, v9);
SET64(v5, 16, v4 + v10);
SET64(v5, 8, v7);
SET64(v5, 0, 1u);
v14 = AT32(a1, 10);
v6 = AT64(a1, 16);
v15 = AT8(a1, 8);
TEST(a0);
SET64(a0, 8, AT64(a1, 0));
SET16(a0, 16, v15);
SET64(a0, 32, v5);
SET64(a0, 24, v6);
SET16(a0, 22, 0u);
SET32(a0, 18, v14);
SET8(a0, 0, 0u);
L2:;
RUD_G0 = v2 + 48u;
return;
}
rud_trap();
}

static u32 in_mm_memory_spare_Spare_fill(RUD_IT u64 a0) {
u32 v6 = 0, i0 = 0;
u64 v1 = 0, v2 = 0, v3 = 0, v4 = 0, v5 = 0, j0 = 0, j1 = 0;
RUD_HERE
v1 = RUD_G0 - 112u;
RUD_G0 = v1;
if ((s64)v1 >= (s64)16u) {
TEST(a0);
if (AT8(a0, 0) == 1u) goto L1;
TEST(v1);
SET64(v1, 72, 0u);
SET64(v1, 80, 0u);
SET64(v1, 88, 0u);
SET64(v1, 96, 0u);
SET64(v1, 104, 0u);
SET64(v1, 32, 0u);
SET64(v1, 40, 0u);
SET64(v1, 48, 0u);
SET64(v1, 64, 0u);
SET64(v1, 56, 4194313u);
in_mm_packet_lent_LentPacket_packet_in_block(RUD_AS v1 + 72u, v1 + 32u);
RUD_AGAIN
if (AT8(v1, 72)) goto L2;
v4 = AT64(v1, 104);
SET64(v1, 24, v4);
v5 = AT64(v1, 96);
SET64(v1, 16, v5);
v2 = AT64(v1, 88);
SET64(v1, 8, v2);
v3 = AT64(v1, 80);
SET64(v1, 0, v3);
SET64(a0, 8, v3);
SET64(a0, 16, v2);
SET64(a0, 24, v5);
i0 = AT8(a0, 0);
SET64(a0, 0, 1u);
a0 = a0 + 32u;
TEST(a0);
v2 = AT64(a0, 0);
SET64(a0, 0, v4);
if (i0 != 1u) goto L1;
TEST(v2);
a0 = AT64(v2, 0);
SET64(v2, 0, a0 - 1u);
if (a0 != 1u) goto L1;
j0 = AT64(v2, 8);
j1 = AT64(v2, 24);
rud_dealloc(RUD_AS v2);
RUD_AGAIN
if (j1 == 0) goto L1;
rud_dealloc(RUD_AS j0);
RUD_AGAIN
goto L1;
}
rud_trap();
return 0;
L2:;
v6 = 1u;
L1:;
RUD_G0 = v1 + 112u;
return v6;
}

static u32 in_std_alloc_vec_Vec_move_to_7cbd3772f10b2324(RUD_IT u64 a0, u64 a1) {
u32 v5 = 0;
u64 v2 = 0, v3 = 0, v4 = 0, j0 = 0, j1 = 0;
RUD_HERE
(void)j0;
v2 = RUD_G0 - 32u;
RUD_G0 = v2;
if ((s64)v2 >= (s64)16u) {
if (a1 >= 384307168202282326ull) goto L2;
j0 = a0;
TEST(a0);
if (!(AT64(a0, 16) == 0)) {
v3 = AT64(a0, 8);
v4 = AT64(a0, 0);
TEST(v2);
SET64(v2, 24, 0u);
SET64(v2, 16, 0u);
rud_realloc(RUD_AS v2 + 16u, v4, v3 * 24u, a1 * 24u, 8u);
RUD_AGAIN
if (AT8(v2, 16) == 0) goto L2;
j1 = AT64(v2, 24);
goto L3;
}
in_std_heap_GlobalAllocator_allocate(RUD_AS v2, a1 * 24u, 8u);
RUD_AGAIN
TEST(v2);
if (AT8(v2, 0)) goto L2;
j1 = AT64(v2, 8);
L3:;
SET64(a0, 0, j1);
SET64(a0, 16, a1);
v5 = 1u;
L2:;
RUD_G0 = v2 + 32u;
return v5;
}
rud_trap();
return 0;
}

static u32 in_mm_service_reserve_Reserve_fill(RUD_IT u64 a0) {
u32 v10 = 0, v11 = 0, v12 = 0;
u64 v1 = 0, v2 = 0, v3 = 0, v4 = 0, v5 = 0, v6 = 0, v7 = 0, v8 = 0, v9 = 0, j0 = 0;
RUD_HERE
v3 = RUD_G0 - 32u;
RUD_G0 = v3;
if ((s64)v3 >= (s64)16u) {
v4 = 5u;
v5 = 4205504u;
TEST(a0);
v1 = AT64(a0, 8);
v2 = v1;
L4:;
if (!(v2 == 0)) {
if (v4 <= (v2 - 1u)) goto L2;
v5 = v5 + (v2 << 3);
v4 = v4 - v2;
}
if (v4 == 0) goto L2;
TEST(v5);
v2 = AT64(v5, 0);
v11 = v2 == 0;
if (v11) {
j0 = v3 + 31u;
} else {
v10 = 1u;
if ((s64)v2 < (s64)0u) goto L1;
in_std_heap_GlobalAllocator_allocate(RUD_AS v3 + 8u, v2, 1u);
RUD_AGAIN
TEST(v3);
v12 = AT8(v3, 8);
if (v12) goto L1;
v1 = AT64(a0, 8);
j0 = v12 ? 0ull : AT64(v3, 16);
}
v7 = j0;
if (v1 == AT64(a0, 16)) {
v10 = 0u;
v6 = RUD_G0;
if ((s64)v6 >= (s64)16u) {
v1 = AT64(a0, 8);
if (v1 == 0xffffffffffffffffull) goto L9;
v1 = (v1 > 3u ? v1 : 3ull) + 1u;
v8 = AT64(a0, 16);
v9 = v8 << 1;
v10 = in_std_alloc_vec_Vec_move_to_7cbd3772f10b2324(RUD_AS a0, v8 < 4611686018427387904ull ? (v1 > v9 ? v1 : v9) : v1);
RUD_AGAIN
goto L9;
}
rud_trap();
return 0;
L9:;
RUD_G0 = v6;
if (v10 == 0) goto L7;
v1 = AT64(a0, 8);
}
v4 = v4 - 1u;
v5 = v5 + 8u;
v6 = AT64(a0, 0) + (v1 * 24u);
TEST(v6);
SET64(v6, 16, v2);
v2 = 0u;
SET64(v6, 8, 0u);
SET64(v6, 0, v7);
v1 = v1 + 1u;
SET64(a0, 8, v1);
goto L4;
L7:;
v10 = 1u;
if (v11) goto L1;
rud_dealloc(RUD_AS v7);
RUD_AGAIN
goto L1;
}
rud_trap();
return 0;
L2:;
v10 = 0u;
L1:;
RUD_G0 = v3 + 32u;
return v10;
}

static void in_std_alloc_vec_Vec_clear_81505d604071a4c2(RUD_IT u64 a0) {
u64 v1 = 0, v2 = 0, v3 = 0, v4 = 0, v5 = 0;
RUD_HERE
v3 = RUD_G0;
if ((s64)v3 >= (s64)16u) {
v1 = a0 + 8u;
TEST(v1);
v2 = AT64(v1, 0);
if (!(v2 == 0)) {
SET64(v1, 0, 0u);
v4 = AT64(v1, 8);
SET64(v1, 8, 0u);
TEST(a0);
v5 = AT64(a0, 0);
v1 = v5;
L3:;
TEST(v1);
if (!(AT64(v1, 16) == 0)) {
rud_dealloc(RUD_AS AT64(v1, 0));
RUD_AGAIN
}
v1 = v1 + 24u;
v2 = v2 - 1u;
if (v2 != 0u) goto L3;
SET64(a0, 0, v5);
SET64(a0, 16, v4);
SET64(a0, 8, 0u);
}
RUD_G0 = v3;
return;
}
rud_trap();
}

static void in_mm_memory_mm_st15_report_Report_Destruct_drop(RUD_IT u64 a0) {
u64 v1 = 0, v2 = 0, v3 = 0;
RUD_HERE
v2 = RUD_G0;
if ((s64)v2 >= (s64)16u) {
TEST(a0);
v1 = AT64(a0, 32);
v3 = AT64(a0, 16);
switch ((u32)(u64)AT8(a0, 0) - 1u) {
case 0u: goto L6;
case 1u: goto L5;
case 2u: goto L4;
default: goto L7;
}
L7:;
if (AT64(a0, 40) == 0) goto L2;
rud_dealloc(RUD_AS AT64(a0, 24));
RUD_AGAIN
goto L2;
L6:;
if (!(v1 == 0)) goto L3;
goto L2;
L5:;
if (!(v1 == 0)) goto L3;
goto L2;
L4:;
if (v1 == 0) goto L2;
L3:;
rud_dealloc(RUD_AS v3);
RUD_AGAIN
L2:;
RUD_G0 = v2;
return;
}
rud_trap();
}

static void in_std_alloc_vec_opened_drop_run_6c67d04a726033d7(RUD_IT u64 a0, u64 a1, u64 a2) {
u64 v3 = 0, v4 = 0, v5 = 0, v6 = 0, v7 = 0;
RUD_HERE
v3 = RUD_G0 - 48u;
RUD_G0 = v3;
if ((s64)v3 >= (s64)16u) {
if (a1 < a2) {
v7 = a2 - a1;
v6 = (a1 * 56u) + 24u;
v5 = v3 + 16u;
L3:;
TEST(a0);
v4 = AT64(a0, 0) + v6;
a2 = (u64)GET8(v4 - 16u, 0);
a1 = GET64(v4 - 8u, 0);
TEST(v4);
TEST(v5);
SET64(v5, 24, AT64(v4, 24));
SET64(v5, 16, AT64(v4, 16));
SET64(v5, 8, AT64(v4, 8));
SET64(v5, 0, AT64(v4, 0));
TEST(v3);
SET64(v3, 8, a1);
SET64(v3, 0, a2);
v6 = v6 + 56u;
in_mm_memory_mm_st15_report_Report_Destruct_drop(RUD_AS v3);
RUD_AGAIN
v7 = v7 - 1u;
if (v7 != 0u) goto L3;
}
RUD_G0 = v3 + 48u;
return;
}
rud_trap();
}

static void in_std_alloc_vec_deque_VecDeque_drop_37450415a5268579(RUD_IT u64 a0) {
u64 v1 = 0, v2 = 0, v3 = 0, v4 = 0, v5 = 0;
RUD_HERE
v1 = RUD_G0 - 16u;
RUD_G0 = v1;
if ((s64)v1 >= (s64)16u) {
TEST(a0);
v2 = AT64(a0, 16);
v3 = AT64(a0, 0);
v5 = AT64(a0, 8);
if (!(v5 == 0)) {
v4 = AT64(a0, 32);
a0 = AT64(a0, 24);
TEST(v1);
SET64(v1, 8, v2);
SET64(v1, 0, v3);
in_std_alloc_vec_opened_drop_run_6c67d04a726033d7(RUD_AS v1, a0, (a0 + v5) - v4);
RUD_AGAIN
in_std_alloc_vec_opened_drop_run_6c67d04a726033d7(RUD_AS v1, 0u, v4);
RUD_AGAIN
}
if (!(v2 == 0)) {
rud_dealloc(RUD_AS v3);
RUD_AGAIN
}
RUD_G0 = v1 + 16u;
return;
}
rud_trap();
}

static void in_std_alloc_vec_Vec_drop_5b598d246d396421(RUD_IT u64 a0) {
u64 v1 = 0, v2 = 0, v3 = 0, v4 = 0, v5 = 0, v6 = 0, v7 = 0, v8 = 0, v9 = 0, v10 = 0, v12 = 0, j0 = 0;
u64 j1 = 0, j2 = 0;
RUD_HERE
v10 = RUD_G0;
if ((s64)v10 >= (s64)16u) {
TEST(a0);
v9 = AT64(a0, 0);
v12 = AT64(a0, 8);
j0 = AT64(a0, 16);
if (!(v12 == 0)) {
L3:;
a0 = v9 + (v7 * 192u);
TEST(a0);
v4 = AT64(a0, 48);
v2 = AT64(a0, 40);
v1 = AT64(a0, 32);
v3 = AT64(a0, 24);
if (AT8(a0, 16) == 0) {
if (v2 == 0) goto L6;
v8 = v1 > v4 ? 0ull : v1;
a0 = v4 - v8;
v5 = v1 - a0;
v6 = v2 > v5 ? v5 : v2;
if (a0 != v1) {
a0 = (v3 + ((v4 * 40u) - (v8 * 40u))) + 32u;
v1 = v6;
L8:;
TEST(a0);
in_std_alloc_arc_Arc_drop_c3b6ee2ab0dfb523(RUD_AS AT64(a0, 0));
RUD_AGAIN
a0 = a0 + 40u;
v1 = v1 - 1u;
if (v1 != 0u) goto L8;
}
if (v2 <= v5) goto L6;
v1 = v2 - v6;
a0 = v3 + 32u;
L9:;
TEST(a0);
in_std_alloc_arc_Arc_drop_c3b6ee2ab0dfb523(RUD_AS AT64(a0, 0));
RUD_AGAIN
a0 = a0 + 40u;
v1 = v1 - 1u;
if (v1 != 0u) goto L9;
L6:;
rud_dealloc(RUD_AS v3);
RUD_AGAIN
goto L4;
}
v8 = AT64(a0, 88);
j1 = AT64(a0, 104);
j2 = AT64(a0, 64);
if (!(v1 == 0)) {
a0 = v3;
L11:;
TEST(a0);
if (AT8(a0, 0)) {
in_std_alloc_arc_Arc_drop_c3b6ee2ab0dfb523(RUD_AS AT64(a0, 40));
RUD_AGAIN
}
a0 = a0 + 48u;
v1 = v1 - 1u;
if (v1 != 0u) goto L11;
}
if (!(v2 == 0)) {
rud_dealloc(RUD_AS v3);
RUD_AGAIN
}
if (!(j2 == 0)) {
rud_dealloc(RUD_AS v4);
RUD_AGAIN
}
if (j1 == 0) goto L4;
rud_dealloc(RUD_AS v8);
RUD_AGAIN
L4:;
v7 = v7 + 1u;
if (v7 != v12) goto L3;
}
if (!(j0 == 0)) {
rud_dealloc(RUD_AS v9);
RUD_AGAIN
}
RUD_G0 = v10;
return;
}
rud_trap();
}

static void in_std_alloc_vec_opened_drop_run_ca74e6edb68b2277(RUD_IT u64 a0, u64 a1, u64 a2) {
u64 v3 = 0, v4 = 0, v5 = 0, v6 = 0;
RUD_HERE
v5 = RUD_G0;
if ((s64)v5 >= (s64)16u) {
if (a1 < a2) {
v4 = a2 - a1;
a2 = (a1 * 56u) + 48u;
L3:;
TEST(a0);
a1 = AT64(a0, 0) + a2;
v3 = GET64(a1 - 8u, 0);
v6 = GET64(a1 - 24u, 0);
switch ((u32)(u64)GET8(a1 - 40u, 0) - 1u) {
case 0u: goto L8;
case 1u: goto L7;
case 2u: goto L6;
default: goto L9;
}
L9:;
TEST(a1);
if (AT64(a1, 0) == 0) goto L4;
rud_dealloc(RUD_AS GET64(a1 - 16u, 0));
RUD_AGAIN
goto L4;
L8:;
if (!(v3 == 0)) goto L5;
goto L4;
L7:;
if (!(v3 == 0)) goto L5;
goto L4;
L6:;
if (v3 == 0) goto L4;
L5:;
rud_dealloc(RUD_AS v6);
RUD_AGAIN
L4:;
a2 = a2 + 56u;
v4 = v4 - 1u;
if (v4 != 0u) goto L3;
}
RUD_G0 = v5;
return;
}
rud_trap();
}

static void in_std_alloc_vec_deque_VecDeque_drop_af93cb7c0deb105d(RUD_IT u64 a0) {
u64 v1 = 0, v2 = 0, v3 = 0, v4 = 0, v5 = 0;
RUD_HERE
v1 = RUD_G0 - 16u;
RUD_G0 = v1;
if ((s64)v1 >= (s64)16u) {
TEST(a0);
v2 = AT64(a0, 16);
v3 = AT64(a0, 0);
v5 = AT64(a0, 8);
if (!(v5 == 0)) {
v4 = AT64(a0, 32);
a0 = AT64(a0, 24);
TEST(v1);
SET64(v1, 8, v2);
SET64(v1, 0, v3);
in_std_alloc_vec_opened_drop_run_ca74e6edb68b2277(RUD_AS v1, a0, (a0 + v5) - v4);
RUD_AGAIN
in_std_alloc_vec_opened_drop_run_ca74e6edb68b2277(RUD_AS v1, 0u, v4);
RUD_AGAIN
}
if (!(v2 == 0)) {
rud_dealloc(RUD_AS v3);
RUD_AGAIN
}
RUD_G0 = v1 + 16u;
return;
}
rud_trap();
}

static void in_rudlayog_memory_open(RUD_IT u64 a0, u64 a1, u64 a2, u64 a3) {
u32 v29 = 0, v30 = 0, v31 = 0, v32 = 0, v33 = 0, v34 = 0, v35 = 0, v36 = 0, v37 = 0, v38 = 0, v39 = 0, i0 = 0;
u32 i1 = 0, i2 = 0;
u64 v4 = 0, v5 = 0, v6 = 0, v7 = 0, v8 = 0, v9 = 0, v10 = 0, v11 = 0, v12 = 0, v13 = 0, v14 = 0, v15 = 0;
u64 v16 = 0, v17 = 0, v18 = 0, v19 = 0, v20 = 0, v21 = 0, v22 = 0, v23 = 0, v24 = 0, v25 = 0, v26 = 0, v27 = 0;
u64 v28 = 0, j0 = 0, j1 = 0;
RUD_HERE
(void)v27;
i0 = in_rattle_enter(RUD_AS0);
if (i0) {
rud_trap();
}
v23 = a0;
v8 = a2;
v18 = a3;
v4 = RUD_G0 - 1920u;
RUD_G0 = v4;
if ((s64)v4 < (s64)16u) goto L8;
TEST(v23);
if (AT8(v23, 8) == 1u) {
TEST(v18);
SET32(v18, 0, 4u);
FILL_FEW(v18 + 4u, 0u, 44u);
goto L2;
}
v10 = a1 + (a1 == 0 ? 4096ull : 0ull);
a0 = 0u;
TEST_FAR(v4, 896);
SET64(v4, 536, 0u);
SET16(v4, 544, 0u);
FILL_FEW(v4 + 490u, 0u, 46u);
SET64(v4, 480, 0u);
SET64(v4, 472, 0u);
SET64(v4, 464, 0u);
SET64(v4, 440, 0u);
SET64(v4, 448, 0u);
SET64(v4, 456, 0u);
SET64(v4, 416, 0u);
SET64(v4, 424, 0u);
SET64(v4, 432, 0u);
SET64(v4, 400, 0u);
SET16(v4, 408, 0u);
FILL_FEW(v4 + 354u, 0u, 46u);
SET64(v4, 344, 0u);
SET64(v4, 336, 0u);
SET64(v4, 328, 0u);
SET64(v4, 304, 0u);
SET64(v4, 312, 0u);
SET64(v4, 320, 0u);
SET64(v4, 280, 0u);
SET64(v4, 288, 0u);
SET64(v4, 296, 0u);
FILL_FEW(v4 + 224u, 0u, 56u);
FILL_FEW(v4 + 168u, 0u, 56u);
SET64(v4, 160, 0u);
SET64(v4, 152, 0u);
SET64(v4, 144, 0u);
SET64(v4, 120, 0u);
SET64(v4, 128, 0u);
SET64(v4, 136, 0u);
SET64(v4, 904, 0u);
SET16(v4, 912, 0u);
FILL_FEW(v4 + 858u, 0u, 46u);
SET64(v4, 848, 0u);
SET64(v4, 840, 0u);
SET64(v4, 832, 0u);
SET64(v4, 808, 0u);
SET64(v4, 816, 0u);
SET64(v4, 824, 0u);
SET64(v4, 784, 0u);
SET64(v4, 792, 0u);
SET64(v4, 800, 0u);
FILL_FEW(v4 + 738u, 0u, 46u);
SET64(v4, 728, 0u);
SET64(v4, 720, 0u);
SET64(v4, 712, 0u);
SET64(v4, 688, 0u);
SET64(v4, 696, 0u);
SET64(v4, 704, 0u);
SET64(v4, 672, 0u);
SET16(v4, 680, 0u);
FILL_FEW(v4 + 626u, 0u, 46u);
SET64(v4, 616, 0u);
SET64(v4, 608, 0u);
SET64(v4, 600, 0u);
SET64(v4, 576, 0u);
SET64(v4, 584, 0u);
SET64(v4, 592, 0u);
SET64(v4, 552, 0u);
SET64(v4, 560, 0u);
SET64(v4, 568, 0u);
SET64(v4, 936, 0u);
SET64(v4, 928, 0u);
SET64(v4, 920, 0u);
v33 = v8 == 0;
if (v33) goto L12;
v7 = v8 - 8u;
a3 = v10 + v7;
L13:;
a2 = a0 + v10;
TEST(a2);
v29 = AT8(a2, 0);
a1 = v8 - a0;
if (((u32)((s32)(u32)(s32)(s8)v29 < (s32)0u) | (u32)(a1 < 2u)) == 0) {
v5 = 1u;
if ((s32)(u32)(s32)(s8)AT8(a2, 1) < (s32)0u) goto L17;
SET64(v4, 952, v8);
SET64(v4, 944, v10);
if (a1 <= 7u) {
L20:;
if ((s32)(u32)(s32)(s8)GET8(a0 + v10, 0) < (s32)0u) goto L14;
a0 = a0 + 1u;
if (v8 != a0) goto L20;
goto L12;
rud_trap();
}
a1 = AT64(a2, 0) & 0x8080808080808080ull;
a1 = (a1 == 0 ? 8ull : (rud_ctz64(a1) >> 3)) + a0;
if (a1 < (a0 + 8u)) {
a0 = a1;
goto L14;
}
if ((v8 - a1) < 32u) goto L22;
L23:;
a0 = a1 + v10;
TEST(a0);
if (((((AT64(a0, 8) | AT64(a0, 0)) | AT64(a0, 16)) | AT64(a0, 24)) & 0x8080808080808080ull) != 0u) goto L22;
j0 = v8;
a0 = v4 + 944u;
a2 = a1 + 32u;
if ((s64)RUD_G0 >= (s64)16u) {
a1 = v8 - a2;
if (a1 < 64u) goto L26;
a0 = AT64(v4, 944);
L27:;
v5 = a0 + a2;
TEST(v5);
i1 = ((((((((AT64(v5, 16) | AT64(v5, 0)) | AT64(v5, 32)) | AT64(v5, 48)) | AT64(v5, 8)) | AT64(v5, 24)) | AT64(v5, 40)) | AT64(v5, 56)) & 0x8080808080808080ull) != 0u;
if (i1) goto L26;
a2 = a2 + 64u;
a1 = a1 - 64u;
if (a1 > 63u) goto L27;
L26:;
j1 = a2;
goto L24;
}
rud_trap();
L24:;
a1 = j1;
if ((j0 - a1) > 31u) goto L23;
L22:;
a0 = v8 - a1;
L28:;
if (a0 < 9u) goto L16;
a0 = a0 - 8u;
a2 = GET64(a1 + v10, 0) & 0x8080808080808080ull;
a2 = a2 == 0 ? 8ull : (rud_ctz64(a2) >> 3);
j0 = a2 + a1;
a1 = a1 + 8u;
if (j0 >= a1) goto L28;
a0 = (a1 + a2) - 8u;
goto L14;
}
v5 = 1u;
if ((s32)(u32)(s32)(s8)v29 >= (s32)0u) goto L17;
if (v29 < 194u) goto L15;
if (v29 <= 223u) {
v5 = 2u;
if (a1 < 2u) goto L15;
if ((s32)(u32)(s32)(s8)AT8(a2, 1) <= (s32)4294967231u) goto L17;
goto L15;
}
if (v29 <= 239u) {
if (a1 < 3u) goto L15;
v30 = (u32)(s32)(s8)AT8(a2, 1);
if ((s32)v30 > (s32)4294967231u) goto L15;
if ((s32)(u32)(s32)(s8)AT8(a2, 2) > (s32)4294967231u) goto L15;
v30 = ((v30 & 255u) + (v29 << 6)) - 14464u;
if (v30 < 32u) goto L15;
v5 = 3u;
if (v30 < 864u) goto L17;
j0 = v30 < 896u ? 0ull : 3ull;
goto L30;
}
if (a1 < 4u) goto L15;
v30 = (u32)(s32)(s8)AT8(a2, 1);
if ((s32)v30 > (s32)4294967231u) goto L15;
if ((s32)(u32)(s32)(s8)AT8(a2, 2) > (s32)4294967231u) goto L15;
if ((s32)(u32)(s32)(s8)AT8(a2, 3) > (s32)4294967231u) goto L15;
v30 = ((v30 & 255u) + (v29 << 6)) - 15488u;
if (v30 < 16u) goto L15;
j0 = v30 < 272u ? 4ull : 0ull;
L30:;
v5 = j0;
if (v5 == 0) goto L15;
L17:;
a0 = a0 + v5;
goto L14;
L16:;
TEST(a3);
a0 = AT64(a3, 0) & 0x8080808080808080ull;
a0 = (a0 == 0 ? 8ull : (rud_ctz64(a0) >> 3)) + v7;
goto L14;
L15:;
i0 = 1u;
goto L11;
L14:;
if (a0 < v8) goto L13;
L12:;
v5 = 0u;
SET64(v4, 1160, 0u);
SET64(v4, 1168, 0u);
SET64(v4, 1176, 0u);
FILL_FEW(v4 + 944u, 0u, 216u);
SET64(v4, 1520, 0u);
SET64(v4, 1528, 0u);
SET64(v4, 1536, 0u);
SET64(v4, 1544, 0u);
SET64(v4, 1280, 0u);
SET64(v4, 1288, 0u);
SET64(v4, 1296, 0u);
SET64(v4, 1256, 0u);
SET64(v4, 1264, 0u);
SET64(v4, 1272, 0u);
SET64(v4, 1232, 0u);
SET64(v4, 1240, 0u);
SET64(v4, 1248, 0u);
SET64(v4, 1208, 0u);
SET64(v4, 1216, 0u);
SET64(v4, 1224, 0u);
SET64(v4, 1200, 0u);
SET64(v4, 1192, 0u);
SET64(v4, 1184, 0u);
a1 = v10;
a0 = 0u;
if (v33) goto L32;
a0 = v8;
if (a0 == 1u) goto L32;
TEST(v10);
if ((u32)(AT8(v10, 0) != 239u) | (u32)(v8 < 3u)) goto L32;
if (AT8(v10, 1) != 187u) goto L32;
if (AT8(v10, 2) != 191u) goto L32;
a0 = v8 - 3u;
a1 = v10 + 3u;
L32:;
in_toml_parser_text_skip_blank(RUD_AS v4 + 104u, a1, a0, 1u);
if (AT64(v4, 112) == 0) goto L10;
SET64(v4, 1320, 0u);
SET64(v4, 1312, 0u);
SET64(v4, 1304, 0u);
v25 = v4 + 1592u;
v20 = v4 + 1784u;
v26 = (v4 + 1488u) | 2u;
v27 = v4 + 1594u;
v28 = (v4 + 1888u) | 2u;
v19 = v4 + 1426u;
v16 = v4 + 1912u;
L36:;
in_toml_parser_text_skip_blank(RUD_AS v4 + 88u, a1, a0, 1u);
v22 = AT64(v4, 96);
if (v22 == 0) {
SET64(v4, 1280, (u64)AT8(v4, 1304));
SET64(v4, 1288, AT64(v4, 1312));
SET64(v4, 1296, AT64(v4, 1320));
in_toml_de_tables_close(RUD_AS v4 + 1520u, v4 + 1280u);
RUD_AGAIN
if (AT8(v4, 1520)) goto L40;
SET64(v4, 1248, v11);
SET64(v4, 1240, v21);
SET64(v4, 1232, v16);
v11 = AT64(v4, 1544);
v13 = AT64(v4, 1536);
v5 = (u64)AT8(v4, 1528);
in_std_alloc_vec_Vec_drop_95beaedac91b374b(RUD_AS v4 + 1232u);
RUD_AGAIN
goto L10;
}
a0 = AT64(v4, 88);
SET64(v4, 1560, 0u);
SET64(v4, 1568, 0u);
SET64(v4, 1576, 0u);
SET64(v4, 1328, 0u);
SET64(v4, 1336, 0u);
SET64(v4, 1344, 0u);
FILL_FEW(v4 + 1584u, 0u, 72u);
FILL_FEW(v4 + 1776u, 0u, 72u);
FILL_FEW(v4 + 1416u, 0u, 72u);
FILL_FEW(v4 + 1352u, 0u, 64u);
TEST(a0);
v34 = AT8(a0, 0);
if (v34 == 91u) {
if (v22 == 1u) goto L45;
if (AT8(a0, 1) != 91u) goto L45;
in_toml_de_document_header_key(RUD_AS v4 + 1584u, a0 + 2u, v22 - 2u);
RUD_AGAIN
v12 = AT64(v4, 1608);
v5 = AT64(v4, 1600);
v31 = AT8(v4, 1593);
v30 = AT8(v4, 1592);
if (AT8(v4, 1584)) goto L43;
v9 = AT64(v4, 1632);
v6 = AT64(v4, 1616);
a2 = AT64(v4, 1648);
if (!(a2 == 0)) {
a1 = AT64(v4, 1640);
TEST(a1);
if (AT8(a1, 0) == 93u) goto L46;
}
TEST(v26);
SET32(v26, 0, AT32(v4, 1594));
SET16(v26, 4, AT16(v4, 1598));
SET8(v4, 1489, v31);
SET8(v4, 1488, v30);
SET64(v4, 1504, v12);
SET64(v4, 1496, v5);
in_std_alloc_vec_Vec_drop_95beaedac91b374b(RUD_AS v4 + 1488u);
RUD_AGAIN
v29 = 5u;
v32 = 1u;
if (v9 == 0) goto L35;
rud_dealloc(RUD_AS v6);
RUD_AGAIN
goto L35;
L46:;
v17 = AT64(v4, 1624);
a0 = a2 - 1u;
a1 = a1 + 1u;
v13 = (u64)AT32(v4, 1594) | ((u64)AT16(v4, 1598) << 32);
v36 = 0u;
v24 = 2u;
v14 = 0u;
goto L38;
L45:;
in_toml_de_document_header_key(RUD_AS v4 + 1776u, a0 + 1u, v22 - 1u);
RUD_AGAIN
v12 = AT64(v4, 1800);
v5 = AT64(v4, 1792);
v31 = AT8(v4, 1785);
v30 = AT8(v4, 1784);
if (AT8(v4, 1776)) goto L43;
v13 = (u64)AT32(v4, 1786) | ((u64)AT16(v4, 1790) << 32);
v36 = 0u;
v24 = 1u;
v14 = 0u;
a0 = AT64(v4, 1840);
a1 = AT64(v4, 1832);
v9 = AT64(v4, 1824);
v17 = AT64(v4, 1816);
v6 = AT64(v4, 1808);
goto L38;
}
in_toml_de_value_key_equals(RUD_AS v4 + 1416u, a0, v22);
RUD_AGAIN
v12 = AT64(v4, 1440);
v5 = AT64(v4, 1432);
v31 = AT8(v4, 1425);
v30 = AT8(v4, 1424);
if (AT8(v4, 1416) == 0) goto L42;
L43:;
v32 = v30;
v29 = v31;
a2 = v5;
v7 = v12;
goto L34;
L42:;
v9 = AT64(v4, 1464);
v17 = AT64(v4, 1456);
v6 = AT64(v4, 1448);
in_toml_de_value_value(RUD_AS v4 + 1352u, AT64(v4, 1472), AT64(v4, 1480), 80u);
RUD_AGAIN
a3 = AT64(v4, 1376);
a2 = AT64(v4, 1368);
v29 = AT8(v4, 1361);
v32 = AT8(v4, 1360);
if (AT8(v4, 1352) == 0) {
v13 = (u64)AT32(v4, 1426) | ((u64)AT16(v4, 1430) << 32);
v24 = 0u;
v36 = AT32(v4, 1392);
v14 = AT64(v4, 1384);
a0 = AT64(v4, 1408);
a1 = AT64(v4, 1400);
i0 = AT32(v4, 1364);
goto L37;
}
TEST(v28);
SET32(v28, 0, AT32(v4, 1426));
SET16(v28, 4, AT16(v4, 1430));
SET8(v4, 1889, v31);
SET8(v4, 1888, v30);
SET64(v4, 1904, v12);
SET64(v4, 1896, v5);
in_std_alloc_vec_Vec_drop_95beaedac91b374b(RUD_AS v4 + 1888u);
RUD_AGAIN
if (v9 == 0) goto L39;
rud_dealloc(RUD_AS v6);
RUD_AGAIN
goto L39;
L40:;
SET64(v4, 1272, v11);
SET64(v4, 1264, v21);
SET64(v4, 1256, v16);
in_std_alloc_vec_Vec_drop_95beaedac91b374b(RUD_AS v4 + 1256u);
RUD_AGAIN
a2 = 0u;
v32 = 0u;
v29 = 0u;
v7 = 0u;
goto L33;
L39:;
v7 = a3;
goto L34;
L38:;
a2 = 0u;
a3 = 0u;
v32 = 0u;
v29 = 0u;
i0 = 0u;
L37:;
v35 = i0;
SET8(v4, 1778, 0u);
SET16(v4, 1776, 0u);
SET64(v4, 1600, 0u);
SET64(v4, 1584, a1);
SET64(v4, 1608, v4 + 1776u);
SET64(v4, 1592, a0);
j1 = in_core_iter_base_Iterator_count_af506e600b762b0d(RUD_AS v4 + 1584u);
v15 = j1;
v7 = a0 - v15;
if (v7 == 0) goto L49;
v33 = GET8(a1 + v15, 0);
switch (v33 - 10u) {
case 0u: case 3u: goto L49;
case 1u: case 2u: goto L50;
default: goto L51;
}
L51:;
if (v33 == 35u) goto L49;
L50:;
SET64(v4, 1576, v12);
SET64(v4, 1568, v5);
SET8(v4, 1561, v31);
SET8(v4, 1560, v30);
SET32(v4, 1562, (u32)v13);
SET16(v4, 1566, (u32)(v13 >> 32));
in_std_alloc_vec_Vec_drop_95beaedac91b374b(RUD_AS v4 + 1560u);
RUD_AGAIN
if (!(v9 == 0)) {
rud_dealloc(RUD_AS v6);
RUD_AGAIN
}
if (v34 == 91u) goto L53;
switch ((u32)((u64)v32 & 255u) - 1u) {
case 0u: case 1u: case 2u: case 3u: goto L53;
case 4u: goto L55;
case 5u: goto L54;
default: goto L56;
}
L56:;
if (v14 == 0) goto L53;
rud_dealloc(RUD_AS a2);
RUD_AGAIN
goto L53;
L55:;
SET64(v4, 1344, v14);
SET64(v4, 1336, a3);
SET64(v4, 1328, a2);
in_std_alloc_vec_Vec_drop_f8ad6a88bf30276b(RUD_AS v4 + 1328u);
RUD_AGAIN
goto L53;
L54:;
if ((a2 & 255u) != 1u) goto L53;
in_std_collections_btree_node_Node_destroy_031b4c9998add48b(RUD_AS a3);
RUD_AGAIN
L53:;
v32 = 1u;
v29 = 6u;
a2 = v7;
goto L34;
L49:;
v13 = (((u64)v30 & 255u) | (((u64)v31 & 255u) << 8)) | (v13 << 16);
if (v34 != 91u) {
FILL_FEW(v25, 0u, 40u);
SET64(v4, 1792, v9);
SET64(v4, 1784, v17);
SET64(v4, 1776, v6);
SET32(v4, 1624, v36);
SET64(v4, 1616, v14);
SET64(v4, 1608, a3);
SET64(v4, 1600, a2);
SET32(v4, 1596, v35);
SET8(v4, 1593, v29);
SET8(v4, 1592, v32);
SET64(v4, 1584, 0u);
in_toml_de_tables_along_header(RUD_AS v4 + 80u, v4 + 1304u, v16, v21, v13, v5, v4 + 1776u, v4 + 1584u);
RUD_AGAIN
SET64(v4, 1432, v12);
SET64(v4, 1424, v5);
SET64(v4, 1416, v13);
v29 = AT8(v4, 81);
v31 = AT8(v4, 80);
in_std_alloc_vec_Vec_drop_95beaedac91b374b(RUD_AS v4 + 1416u);
RUD_AGAIN
goto L57;
}
SET64(v4, 1776, 0u);
SET64(v4, 1784, 0u);
SET64(v4, 1792, 0u);
SET64(v4, 1800, 0u);
FILL_FEW(v25, 0u, 40u);
SET64(v4, 1432, v12);
SET64(v4, 1424, v5);
SET64(v4, 1416, v13);
SET64(v4, 1368, v9);
SET64(v4, 1360, v17);
SET64(v4, 1352, v6);
in_std_alloc_string_methods_StringClone_clone_23d1122e78b2f742(RUD_AS v4 + 1776u, v4 + 1352u);
RUD_AGAIN
if (AT8(v4, 1776) == 0) {
SET32(v4, 1624, v36);
SET64(v4, 1616, v14);
SET64(v4, 1608, a3);
SET64(v4, 1600, a2);
SET32(v4, 1596, v35);
SET8(v4, 1593, v29);
SET8(v4, 1592, v32);
SET64(v4, 1584, v24);
in_toml_de_tables_along_header(RUD_AS v4 + 72u, v4 + 1304u, v13, v5, v4 + 1912u, 0u, v20, v4 + 1584u);
RUD_AGAIN
if (AT8(v4, 72)) goto L61;
if (v5 == v12) goto L62;
goto L59;
}
goto L60;
L62:;
i0 = in_std_alloc_vec_Vec_grow_amortized_27f1a6001881071a(RUD_AS v4 + 1416u);
RUD_AGAIN
if (i0 == 0) goto L60;
v12 = AT64(v4, 1432);
v13 = AT64(v4, 1416);
v5 = AT64(v4, 1424);
goto L59;
L61:;
v29 = AT8(v4, 73);
if (!(v9 == 0)) {
rud_dealloc(RUD_AS v6);
RUD_AGAIN
}
in_std_alloc_vec_Vec_drop_95beaedac91b374b(RUD_AS v4 + 1416u);
RUD_AGAIN
v31 = 1u;
goto L57;
L60:;
if (!(v9 == 0)) {
rud_dealloc(RUD_AS v6);
RUD_AGAIN
}
in_std_alloc_vec_Vec_drop_95beaedac91b374b(RUD_AS v4 + 1416u);
RUD_AGAIN
v31 = 1u;
v29 = 0u;
goto L57;
L59:;
a2 = v13 + (v5 * 24u);
TEST(a2);
SET64(a2, 16, v9);
SET64(a2, 8, v17);
SET64(a2, 0, v6);
SET64(v4, 1504, v11);
SET64(v4, 1496, v21);
SET64(v4, 1488, v16);
v21 = v5 + 1u;
in_std_alloc_vec_Vec_drop_95beaedac91b374b(RUD_AS v4 + 1488u);
RUD_AGAIN
v29 = 0u;
v16 = v13;
v11 = v12;
v31 = 0u;
L57:;
if ((v31 & 255u) == 0) goto L36;
SET64(v4, 1200, v11);
SET64(v4, 1192, v21);
SET64(v4, 1184, v16);
v30 = v29 & 255u;
v7 = v30 ? a0 : 0ull;
a2 = v30 ? v22 : 0ull;
v32 = v30 != 0u;
in_std_alloc_vec_Vec_drop_95beaedac91b374b(RUD_AS v4 + 1184u);
RUD_AGAIN
if (AT8(v4, 1304) != 1u) goto L33;
in_std_collections_btree_node_Node_destroy_dc0ad195889b9f50(RUD_AS AT64(v4, 1312));
RUD_AGAIN
goto L33;
L35:;
v7 = a2;
L34:;
SET64(v4, 1224, v11);
SET64(v4, 1216, v21);
SET64(v4, 1208, v16);
in_std_alloc_vec_Vec_drop_95beaedac91b374b(RUD_AS v4 + 1208u);
RUD_AGAIN
if (AT8(v4, 1304) != 1u) goto L33;
in_std_collections_btree_node_Node_destroy_dc0ad195889b9f50(RUD_AS AT64(v4, 1312));
RUD_AGAIN
L33:;
SET64(v4, 1176, v7);
SET64(v4, 1168, a2);
SET8(v4, 1161, v29);
SET8(v4, 1160, v32);
v5 = v4 + 944u;
a1 = v4 + 1160u;
if ((s64)RUD_G0 >= (s64)16u) {
if (AT8(v4, 1160) == 0) {
FILL_FEW(v5, 0u, 216u);
goto L66;
}
v33 = AT8(v4, 1161);
a0 = v8 - AT64(v4, 1176);
a3 = a0 > v8 ? 0ull : a0;
a0 = v8 - AT64(v4, 1168);
a0 = a0 > v8 ? 0ull : a0;
a1 = a0 > a3 ? a3 : a0;
if (a1 == 0) {
v8 = 1u;
v7 = 1u;
goto L69;
}
v7 = 1u;
a0 = a1;
v8 = 1u;
L71:;
TEST(v10);
v30 = (u32)(s32)(s8)AT8(v10, 0);
if (v30 == 10u) {
v8 = 1u;
a2 = v7 + 1u;
v7 = a2 == 0 ? 18446744073709551615ull : a2;
goto L72;
}
if ((s32)v30 < (s32)4294967232u) goto L72;
a2 = v8 + 1u;
v8 = a2 == 0 ? 18446744073709551615ull : a2;
L72:;
v10 = v10 + 1u;
a0 = a0 - 1u;
if (a0 != 0u) goto L71;
L69:;
SET32(v4, 945, 0u);
SET8(v4, 944, v33);
SET32(v4, 948, 0u);
SET64(v4, 976, v8);
SET64(v4, 968, v7);
SET64(v4, 960, a3);
SET64(v4, 952, a1);
FILL_FEW(v5 + 40u, 0u, 176u);
goto L66;
}
rud_trap();
L66:;
i0 = (u64)AT8(v4, 944) != 0u;
L11:;
v30 = i0;
v35 = 0u;
v31 = 0u;
v34 = 0u;
goto L5;
L10:;
SET64(v4, 936, v11);
SET64(v4, 928, v13);
SET64(v4, 920, v5);
SET32(v4, 1776, 318898432u);
v11 = 0u;
SET64(v4, 944, 0u);
SET64(v4, 1584, 0u);
SET64(v4, 1592, 0u);
v32 = 0u;
v30 = 2u;
i0 = in_mm_problem_keys_has_only(RUD_AS v4 + 1776u, 4u, v4 + 920u);
if (i0 == 0) {
v29 = 6u;
v34 = 0u;
v31 = 0u;
goto L77;
}
v34 = 0u;
in_mm_problem_keys_value_at(RUD_AS v4 + 56u, 0u, v4 + 920u);
if (AT8(v4, 56) != 1u) {
v31 = 0u;
v29 = 0u;
goto L77;
}
v31 = 0u;
v29 = 0u;
a0 = AT64(v4, 64);
TEST(a0);
if (AT8(a0, 0) != 5u) goto L77;
v8 = AT64(a0, 16);
SET64(v4, 960, v8);
a3 = AT64(a0, 8);
SET64(v4, 952, a3);
in_mm_problem_keys_array_if_any(RUD_AS v4 + 944u, 1u, v4 + 920u);
v20 = AT64(v4, 952);
if (AT8(v4, 944) == 0) {
v15 = AT64(v4, 960);
in_mm_problem_keys_array_if_any(RUD_AS v4 + 944u, 2u, v4 + 920u);
v17 = AT64(v4, 952);
if (AT8(v4, 944)) goto L82;
v14 = AT64(v4, 960);
a2 = v4 + 1584u;
a0 = v4 + 920u;
v7 = RUD_G0 - 64u;
RUD_G0 = v7;
if ((s64)v7 >= (s64)16u) {
in_mm_problem_keys_value_at(RUD_AS v7, 19u, a0);
v33 = 1u;
TEST(v7);
if (AT8(v7, 0) != 1u) goto L85;
a1 = AT64(v7, 8);
TEST(a1);
if (AT8(a1, 0)) {
a0 = 81604378624ull;
i0 = 2u;
goto L84;
}
a0 = AT64(a1, 8);
SET64(v7, 56, AT64(a1, 16));
SET64(v7, 48, a0);
SET64(v7, 40, 6u);
SET64(v7, 32, 4205465u);
i0 = in_core_cmp_text_RefStrPartialEq_eq(RUD_AS v7 + 48u, v7 + 32u);
if (i0) goto L85;
SET64(v7, 24, 6u);
SET64(v7, 16, 4205471u);
i2 = in_core_cmp_text_RefStrPartialEq_eq(RUD_AS v7 + 48u, v7 + 16u);
v29 = i2;
a0 = v29 ? 0ull : 81604378624ull;
v33 = v29 ^ 1u;
i0 = v29 ? 0u : 2u;
goto L84;
}
rud_trap();
L85:;
a0 = 0u;
v33 = 0u;
i0 = 0u;
L84:;
v30 = i0;
SET8(v4, 1584, v33);
SET64(v4, 1592, a0);
SET8(v4, 1589, 0u);
SET8(v4, 1588, v30);
SET8(v4, 1585, v29);
RUD_G0 = v7 + 64u;
if (AT8(v4, 1584) == 0) goto L81;
v30 = AT8(v4, 1588);
v34 = AT8(v4, 1589);
v31 = AT32(v4, 1592);
v29 = AT32(v4, 1596);
goto L77;
}
v29 = (u32)(v20 >> 32);
v31 = (u32)v20;
goto L80;
L82:;
v29 = (u32)(v17 >> 32);
v31 = (u32)v17;
goto L80;
L81:;
v30 = 7u;
v31 = 1u;
if ((v8 - 1u) > 15u) {
a3 = 0u;
v34 = 3u;
goto L88;
}
if (v15 > 256u) {
a3 = 0u;
v34 = 4u;
goto L88;
}
if (v14 >= 9u) {
a3 = 0u;
v34 = 5u;
goto L88;
}
SET64(v4, 952, 0u);
SET64(v4, 960, 0u);
a2 = v4 + 1912u;
SET64(v4, 944, a2);
v36 = (u32)(a2 >> 32);
v35 = (u32)a2;
v12 = 0u;
L94:;
SET32(v4, 1600, 0u);
SET64(v4, 1592, 0u);
SET64(v4, 1584, 0u);
SET64(v4, 1520, 0u);
SET64(v4, 1528, 0u);
SET64(v4, 1488, 0u);
SET64(v4, 1496, 0u);
SET64(v4, 1888, 0u);
SET64(v4, 1896, 0u);
v29 = (u32)v11 + 1u;
a0 = a3 + (v12 * 40u);
TEST(a0);
if (AT8(a0, 0) == 6u) {
v7 = a0 + 8u;
i0 = in_mm_problem_keys_has_only(RUD_AS 4205477u, 5u, v7);
if (i0) goto L98;
j0 = (u64)v29 | 25769803776ull;
goto L99;
}
j0 = (u64)v29;
L99:;
a0 = j0;
v31 = (u32)(a0 >> 32);
v29 = (u32)a0;
goto L97;
L98:;
in_mm_problem_tables_id_at(RUD_AS v4 + 1520u, v29, 8u, v7);
v10 = AT64(v4, 1521);
if (AT8(v4, 1520)) {
SET8(v4, 1570, AT8(v4, 1531));
SET16(v4, 1568, AT16(v4, 1529));
SET64(v4, 1560, v10 & 0xff0000ffff000000ull);
v34 = (u32)(v10 >> 32);
v30 = (u32)(v10 >> 24);
v31 = AT32(v4, 1532);
v29 = AT32(v4, 1567);
goto L96;
}
in_mm_problem_keys_number_at(RUD_AS v4 + 1488u, v29, 9u, 1u, 1000000u, v7);
v30 = AT32(v4, 1492);
if (AT8(v4, 1488)) {
v34 = v30 >> 8;
v31 = AT32(v4, 1500);
v29 = AT32(v4, 1496);
goto L96;
}
v31 = 10u;
in_mm_problem_keys_value_at(RUD_AS v4 + 40u, 10u, v7);
if ((AT8(v4, 40) & 1u) == 0) goto L97;
a1 = AT64(v4, 48);
TEST(a1);
if (AT8(a1, 0)) goto L97;
a0 = AT64(a1, 8);
SET64(v4, 1784, AT64(a1, 16));
SET64(v4, 1776, a0);
SET64(v4, 1424, 8u);
SET64(v4, 1416, 4205482u);
i0 = in_core_cmp_text_RefStrPartialEq_eq(RUD_AS v4 + 1776u, v4 + 1416u);
if (i0) {
v6 = 0u;
goto L103;
}
SET64(v4, 1360, 7u);
SET64(v4, 1352, 4205490u);
v6 = 4294967296ull;
i0 = in_core_cmp_text_RefStrPartialEq_eq(RUD_AS v4 + 1776u, v4 + 1352u);
if (i0 == 0) goto L97;
L103:;
in_mm_problem_keys_number_at(RUD_AS v4 + 1888u, v29, 11u, 0u, 7u, v7);
v32 = AT32(v4, 1892);
if (AT8(v4, 1888) == 0) {
SET64(v4, 1784, 0u);
SET64(v4, 1776, 0u);
in_mm_problem_keys_value_at(RUD_AS v4 + 24u, 12u, v7);
if (AT8(v4, 24) != 1u) {
v33 = 0u;
goto L105;
}
in_mm_problem_keys_number_at(RUD_AS v4 + 1776u, v29, 12u, 0u, v30, v7);
v33 = AT32(v4, 1780);
if (AT8(v4, 1776) == 0) goto L105;
v31 = AT32(v4, 1788);
v29 = AT32(v4, 1784);
v34 = v33 >> 8;
v30 = v33;
goto L96;
}
v34 = v32 >> 8;
v31 = AT32(v4, 1900);
v29 = AT32(v4, 1896);
v30 = v32;
goto L96;
L105:;
SET32(v4, 1592, v30);
SET64(v4, 1584, v10);
a1 = (v6 | (u64)v33) | ((u64)(v32 & 255u) << 40);
SET64(v4, 1596, a1);
v6 = a2 - 20u;
v9 = 0xffffffffffffffffull;
L108:;
v9 = v9 + 1u;
if (v11 == v9) goto L95;
v6 = v6 + 20u;
i0 = in_mm_base_id_StoreIdPartialEq_eq(RUD_AS v6, v4 + 1584u);
if (i0 == 0) goto L108;
v31 = 7u;
L97:;
v30 = 2u;
L96:;
if (AT64(v4, 960) == 0) goto L92;
rud_dealloc(RUD_AS a2);
RUD_AGAIN
goto L92;
L95:;
v6 = v11;
if (v6 == AT64(v4, 960)) {
v11 = v4 + 944u;
v33 = 0u;
v6 = RUD_G0 - 32u;
RUD_G0 = v6;
if ((s64)v6 >= (s64)16u) {
v5 = AT64(v4, 952);
if (v5 == 0xffffffffffffffffull) goto L112;
a2 = (v5 > 3u ? v5 : 3ull) + 1u;
v7 = AT64(v4, 960);
a0 = v7 << 1;
a0 = a0 < a2 ? a2 : a0;
a2 = v7 < 4611686018427387904ull ? a0 : a2;
if (a2 > 461168601842738790ull) goto L112;
j0 = v11;
if (!(v7 == 0)) {
a0 = AT64(v4, 944);
TEST(v6);
SET64(v6, 24, 0u);
SET64(v6, 16, 0u);
rud_realloc(RUD_AS v6 + 16u, a0, v5 * 20u, a2 * 20u, 4u);
RUD_AGAIN
if (AT8(v6, 16) == 0) goto L112;
j1 = AT64(v6, 24);
goto L113;
}
in_std_heap_GlobalAllocator_allocate(RUD_AS v6, a0 * 20u, 4u);
RUD_AGAIN
TEST(v6);
if (AT8(v6, 0)) goto L112;
j1 = AT64(v6, 8);
L113:;
SET64(v4, 944, j1);
SET64(v4, 960, a2);
v33 = 1u;
L112:;
RUD_G0 = v6 + 32u;
i0 = v33;
goto L110;
}
rud_trap();
L110:;
if (i0 == 0) goto L93;
v6 = AT64(v4, 952);
a2 = AT64(v4, 944);
}
a0 = a2 + (v6 * 20u);
TEST(a0);
SET64(a0, 12, a1);
SET32(a0, 8, v30);
SET64(a0, 0, v10);
v11 = v6 + 1u;
SET64(v4, 952, v11);
v12 = v12 + 1u;
if (v12 != v8) goto L94;
v13 = AT64(v4, 960);
a3 = AT64(v4, 944);
SET64(v4, 952, 0u);
SET64(v4, 960, 0u);
SET64(v4, 944, v4 + 1912u);
v31 = 1u;
v33 = 1u;
v9 = 0u;
v29 = v36;
v30 = v35;
if (!(v15 == 0)) {
v7 = v6 + 2u;
a0 = a3 - 20u;
v16 = v4 + 1524u;
v10 = v4 + 1496u;
v6 = v4 + 1361u;
a2 = v4 + 1912u;
v12 = 0u;
L120:;
SET32(v4, 1528, 0u);
SET64(v4, 1520, 0u);
SET16(v4, 1896, 0u);
SET64(v4, 1584, 0u);
SET64(v4, 1592, 0u);
SET64(v4, 1776, 0u);
SET64(v4, 1784, 0u);
SET64(v4, 1416, 0u);
SET64(v4, 1424, 0u);
SET64(v4, 1352, 0u);
SET64(v4, 1360, 0u);
v32 = (u32)v9 + 1u;
a1 = v20 + (v12 * 40u);
TEST(a1);
if (AT8(a1, 0) == 6u) {
a1 = a1 + 8u;
i0 = in_mm_problem_keys_has_only(RUD_AS 4205497u, 4u, a1);
if (i0) goto L121;
j0 = (u64)v32 | 25769803776ull;
goto L122;
}
j0 = (u64)v32 | 4294967296ull;
L122:;
a0 = j0;
v31 = (u32)(a0 >> 32);
v32 = (u32)a0;
goto L117;
L121:;
in_mm_problem_keys_number_at(RUD_AS v4 + 1584u, v32, 13u, 0u, 2046u, a1);
v30 = AT32(v4, 1588);
if (AT8(v4, 1584)) {
v31 = AT32(v4, 1596);
v32 = AT32(v4, 1592);
i0 = v30 >> 8;
goto L116;
}
in_mm_problem_keys_number_at(RUD_AS v4 + 1776u, v32, 14u, 0u, 255u, a1);
v29 = AT32(v4, 1780);
if (AT8(v4, 1776)) {
v31 = AT32(v4, 1788);
v32 = AT32(v4, 1784);
v30 = v29;
i0 = v30 >> 8;
goto L116;
}
in_mm_problem_keys_number_at(RUD_AS v4 + 1416u, v32, 15u, 0u, 255u, a1);
v33 = AT32(v4, 1420);
if (AT8(v4, 1416)) {
v31 = AT32(v4, 1428);
v32 = AT32(v4, 1424);
v30 = v33;
i0 = v30 >> 8;
goto L116;
}
in_mm_problem_tables_id_at(RUD_AS v4 + 1352u, v32, 0u, a1);
a1 = AT64(v4, 1353);
if (AT8(v4, 1352)) {
SET8(v4, 1498, AT8(v4, 1363));
SET16(v4, 1496, AT16(v4, 1361));
SET64(v4, 1488, a1 & 0xff0000ffff000000ull);
v30 = (u32)(a1 >> 24);
v31 = AT32(v4, 1364);
v32 = AT32(v4, 1495);
i0 = (u32)(a1 >> 32);
goto L116;
}
SET8(v4, 1523, v33);
SET8(v4, 1522, v29);
SET16(v4, 1520, v30);
SET64(v4, 1888, a1);
v38 = AT32(v4, 1894);
SET16(v4, 1530, v38);
v39 = (u32)a1;
SET16(v4, 1524, v39);
v34 = (u32)(a1 >> 16);
SET32(v4, 1526, v34);
a1 = v7;
v5 = a0;
L128:;
a1 = a1 - 1u;
if (a1 == 0) {
v30 = 2u;
v31 = 0u;
i0 = 0u;
goto L116;
}
v5 = v5 + 20u;
i0 = in_mm_base_id_StoreIdPartialEq_eq(RUD_AS v5, v16);
if (i0 == 0) goto L128;
if (!(v9 == 0)) {
a1 = a2;
v5 = v9;
L131:;
TEST(a1);
if (AT16(a1, 0) != (v30 & 65535u)) goto L132;
if (AT8(a1, 2) != (v29 & 255u)) goto L132;
if (AT8(a1, 3) != (v33 & 255u)) goto L132;
i0 = in_mm_base_id_StoreIdPartialEq_eq(RUD_AS a1 + 4u, v16);
if (i0 == 0) goto L132;
v31 = 7u;
goto L117;
L132:;
a1 = a1 + 12u;
v5 = v5 - 1u;
if (!(v5 == 0)) goto L131;
}
if (v9 == AT64(v4, 960)) {
v9 = v4 + 944u;
v37 = 0u;
v19 = RUD_G0 - 32u;
RUD_G0 = v19;
if ((s64)v19 >= (s64)16u) {
v5 = AT64(v4, 952);
if (v5 == 0xffffffffffffffffull) goto L136;
a2 = (v5 > 3u ? v5 : 3ull) + 1u;
v8 = AT64(v4, 960);
a1 = v8 << 1;
a1 = a1 < a2 ? a2 : a1;
a2 = v8 < 4611686018427387904ull ? a1 : a2;
if (a2 > 768614336404564650ull) goto L136;
if (!(v8 == 0)) {
in_std_heap_GlobalAllocator_grow_23_mm_base_rows_RouteRow(RUD_AS v19 + 16u, AT64(v4, 944), v5, a2);
RUD_AGAIN
TEST(v19);
v32 = AT8(v19, 16);
j0 = AT64(v19, 24);
goto L137;
}
in_std_heap_GlobalAllocator_allocate(RUD_AS v19, a1 * 12u, 2u);
RUD_AGAIN
TEST(v19);
v32 = AT8(v19, 0);
j0 = v32 ? 0ull : AT64(v19, 8);
L137:;
a1 = j0;
if (v32) goto L136;
SET64(v4, 960, a2);
SET64(v4, 944, a1);
v37 = 1u;
L136:;
RUD_G0 = v19 + 32u;
i0 = v37;
goto L134;
}
rud_trap();
L134:;
if (i0 == 0) goto L118;
v9 = AT64(v4, 952);
a2 = AT64(v4, 944);
}
a1 = a2 + (v9 * 12u);
TEST(a1);
SET16(a1, 10, v38);
SET32(a1, 6, v34);
SET16(a1, 4, v39);
SET8(a1, 3, v33);
SET8(a1, 2, v29);
SET16(a1, 0, v30);
v9 = v9 + 1u;
SET64(v4, 952, v9);
v12 = v12 + 1u;
if (v12 != v15) goto L120;
v33 = AT64(v4, 960) == 0;
v29 = AT32(v4, 948);
v30 = AT32(v4, 944);
}
SET64(v4, 952, 0u);
SET64(v4, 960, 0u);
v16 = (u64)v30 | ((u64)v29 << 32);
SET64(v4, 944, v4 + 1912u);
if (v14 == 0) {
i0 = v35;
} else {
v6 = v4 + 1912u;
v5 = 0u;
v10 = 0u;
L144:;
SET64(v4, 1584, 0u);
SET64(v4, 1592, 0u);
SET64(v4, 1776, 0u);
SET64(v4, 1784, 0u);
v32 = (u32)v5 + 1u;
a0 = v17 + (v10 * 40u);
TEST(a0);
if (AT8(a0, 0) == 6u) {
a0 = a0 + 8u;
i0 = in_mm_problem_keys_has_only(RUD_AS 4205501u, 2u, a0);
if (i0) goto L145;
j0 = (u64)v32 | 25769803776ull;
goto L146;
}
j0 = (u64)v32 | 8589934592ull;
L146:;
a1 = j0;
a0 = (a1 << 32) | 2u;
v29 = (u32)(a1 >> 32);
goto L141;
L145:;
in_mm_problem_keys_number_at(RUD_AS v4 + 1584u, v32, 11u, 0u, 7u, a0);
v35 = AT32(v4, 1588);
if (AT8(v4, 1584)) {
a0 = (u64)(v35 & 255u) | ((u64)(v35 & 65280u) | ((u64)AT32(v4, 1592) << 32));
v29 = AT32(v4, 1596);
goto L141;
}
in_mm_problem_keys_number_at(RUD_AS v4 + 1776u, v32, 16u, 0u, 1000000u, a0);
v29 = AT32(v4, 1780);
if (AT8(v4, 1776)) {
a0 = (u64)(v29 & 255u) | ((u64)(v29 & 65280u) | ((u64)AT32(v4, 1784) << 32));
v29 = AT32(v4, 1788);
goto L141;
}
a1 = 0xffffffffffffffffull;
a0 = v6;
L151:;
a1 = a1 + 1u;
if (v5 == a1) goto L150;
TEST(a0);
i0 = AT8(a0, 0);
a0 = a0 + 8u;
if (i0 != (v35 & 255u)) goto L151;
a0 = ((u64)v32 << 32) | 2u;
j0 = 30064771072ull;
goto L140;
L150:;
if (v5 == AT64(v4, 960)) {
v8 = v4 + 944u;
v30 = 0u;
v5 = RUD_G0 - 32u;
RUD_G0 = v5;
if ((s64)v5 >= (s64)16u) {
v7 = AT64(v4, 952);
if (v7 == 0xffffffffffffffffull) goto L155;
a1 = (v7 > 3u ? v7 : 3ull) + 1u;
a2 = AT64(v4, 960);
a0 = a2 << 1;
a0 = a0 < a1 ? a1 : a0;
a1 = a2 < 4611686018427387904ull ? a0 : a1;
if (a1 > 1152921504606846975ull) goto L155;
j0 = v8;
if (!(a2 == 0)) {
a0 = AT64(v4, 944);
TEST(v5);
SET64(v5, 24, 0u);
SET64(v5, 16, 0u);
rud_realloc(RUD_AS v5 + 16u, a0, v7 << 3, a1 << 3, 4u);
RUD_AGAIN
if (AT8(v5, 16) == 0) goto L155;
j1 = AT64(v5, 24);
goto L156;
}
in_std_heap_GlobalAllocator_allocate(RUD_AS v5, a0 << 3, 4u);
RUD_AGAIN
TEST(v5);
if (AT8(v5, 0)) goto L155;
j1 = AT64(v5, 8);
L156:;
SET64(v4, 944, j1);
SET64(v4, 960, a1);
v30 = 1u;
L155:;
RUD_G0 = v5 + 32u;
i0 = v30;
goto L153;
}
rud_trap();
L153:;
if (i0 == 0) goto L142;
v6 = AT64(v4, 944);
v5 = AT64(v4, 952);
}
PUT64(v6 + (v5 << 3), 0, (u64)(v35 & 255u) | ((u64)v29 << 32));
v5 = v5 + 1u;
SET64(v4, 952, v5);
v10 = v10 + 1u;
if (v10 != v14) goto L144;
v31 = AT64(v4, 960) == 0;
v36 = AT32(v4, 948);
i0 = AT32(v4, 944);
}
v7 = (u64)i0 | ((u64)v36 << 32);
v30 = 0u;
v32 = 1u;
v34 = 0u;
i0 = v13 == 0;
goto L74;
L142:;
a0 = 0u;
v30 = 0u;
if (!(AT64(v4, 960) == 0)) {
rud_dealloc(RUD_AS AT64(v4, 944));
RUD_AGAIN
}
v34 = 0u;
goto L139;
L141:;
j0 = (u64)v29 << 32;
L140:;
a1 = j0;
if (!(AT64(v4, 960) == 0)) {
rud_dealloc(RUD_AS v6);
RUD_AGAIN
}
v34 = (u32)(a0 >> 8);
v30 = (u32)a0;
a0 = (a0 >> 32) | a1;
L139:;
if (v33 == 0) {
rud_dealloc(RUD_AS v16);
RUD_AGAIN
}
v32 = 0u;
if (!(v13 == 0)) {
rud_dealloc(RUD_AS a3);
RUD_AGAIN
}
v11 = 0u;
a3 = a0;
goto L75;
L118:;
if (!(AT64(v4, 960) == 0)) {
rud_dealloc(RUD_AS AT64(v4, 944));
RUD_AGAIN
}
v30 = 0u;
v34 = 0u;
v32 = 0u;
v31 = 0u;
goto L115;
L117:;
v30 = 2u;
i0 = 0u;
L116:;
v34 = i0;
if (AT64(v4, 960) == 0) goto L115;
rud_dealloc(RUD_AS a2);
RUD_AGAIN
L115:;
j0 = (u64)v32 | ((u64)v31 << 32);
v32 = 0u;
v31 = 1u;
if (!(v13 == 0)) {
rud_dealloc(RUD_AS a3);
RUD_AGAIN
}
v11 = 0u;
a3 = j0;
goto L75;
L93:;
if (!(AT64(v4, 960) == 0)) {
rud_dealloc(RUD_AS AT64(v4, 944));
RUD_AGAIN
}
v30 = 0u;
v29 = 0u;
v31 = 0u;
L92:;
v11 = 0u;
v32 = 0u;
j0 = (u64)v29 | ((u64)v31 << 32);
goto L76;
L88:;
goto L75;
L80:;
v34 = AT8(v4, 949);
v30 = AT8(v4, 948);
L77:;
j0 = (u64)v31 | ((u64)v29 << 32);
L76:;
a3 = j0;
v31 = 1u;
L75:;
v16 = 0u;
v9 = 0u;
v33 = 1u;
v7 = 0u;
i0 = 1u;
L74:;
v29 = i0;
if (AT8(v4, 920) == 1u) {
in_std_collections_btree_node_Node_destroy_ada23bb4fd0ecfa1(RUD_AS AT64(v4, 928));
RUD_AGAIN
}
if (v32 == 0) {
v35 = (u32)(a3 >> 32);
v31 = (u32)a3;
goto L5;
}
FILL_FEW(v4 + 1520u, 0u, 40u);
v10 = 0u;
SET64(v4, 1511, 0u);
SET64(v4, 1504, 0u);
SET64(v4, 1496, 0u);
SET64(v4, 1488, 0u);
FILL_FEW(v4 + 1416u, 0u, 46u);
a0 = v4 + 1352u;
FILL_FEW(a0, 0u, 40u);
i0 = in_mm_memory_spare_Spare_fill(RUD_AS a0);
RUD_AGAIN
if ((i0 & 255u) == 0) {
FILL_FEW(v4 + 944u, 0u, 200u);
SET64(v4, 1896, 0u);
SET64(v4, 1904, 0u);
SET64(v4, 1888, v4 + 1912u);
if (v11 == 0) {
v15 = v4 + 1912u;
j0 = 0u;
goto L173;
}
v20 = v4 + 1760u;
v12 = v4 + 1705u;
v5 = v4 + 1648u;
v15 = v4 + 1608u;
v17 = v4 + 1593u;
v8 = v4 + 1832u;
v14 = v4 + 1792u;
a0 = a3;
L175:;
a1 = v4 + 1776u;
FILL_FEW(a1, 0u, 112u);
TEST(a0);
in_mm_store_any_AnyStore_new(RUD_AS a1, AT8(a0, 16), AT32(a0, 8));
RUD_AGAIN
if (AT8(v4, 1776)) goto L170;
v30 = AT8(a0, 17);
a2 = AT64(a0, 0);
SET64(v4, 1608, AT64(v4, 1792));
SET64(v4, 1616, AT64(v4, 1800));
v13 = (u64)AT8(v4, 1784);
v10 = AT64(v4, 1808);
a1 = AT64(v4, 1816);
v6 = AT64(v4, 1824);
COPY_FEW(v5, v8, 56u);
SET32(v4, 1593, 0u);
SET32(v4, 1596, 0u);
SET8(v4, 1592, v30);
SET64(v4, 1584, a2);
SET8(v4, 1704, 1u);
SET64(v4, 1640, v6);
SET64(v4, 1632, a1);
SET64(v4, 1624, v10);
SET64(v4, 1600, v13);
FILL_FEW(v12, 0u, 47u);
SET64(v4, 1760, 0u);
SET64(v4, 1768, 0u);
SET64(v4, 1752, (v13 == 0 ? v10 : v6) & 4294967295u);
in_std_alloc_vec_Vec_push_1546441aeb499ef3(RUD_AS v4 + 944u, v4 + 1888u, v4 + 1584u);
RUD_AGAIN
if (AT8(v4, 944)) goto L169;
a0 = a0 + 20u;
v11 = v11 - 1u;
if (!(v11 == 0)) goto L175;
v10 = AT64(v4, 1904);
v15 = AT64(v4, 1888);
j0 = AT64(v4, 1896);
L173:;
v5 = j0;
SET64(v4, 1576, v10);
SET64(v4, 1568, v5);
SET64(v4, 1560, v15);
SET64(v4, 1784, 0u);
SET64(v4, 1792, 0u);
SET64(v4, 1776, v4 + 1912u);
i0 = in_std_alloc_vec_Vec_move_to_98cf589476e368ff(RUD_AS v4 + 1776u, 256u);
RUD_AGAIN
if (i0) goto L171;
if (!(AT64(v4, 1792) == 0)) {
rud_dealloc(RUD_AS AT64(v4, 1776));
RUD_AGAIN
}
in_std_alloc_vec_Vec_drop_d529bc2ce50a9423(RUD_AS v4 + 1560u);
RUD_AGAIN
goto L168;
}
if (AT8(v4, 1352) == 1u) {
in_std_alloc_arc_Arc_drop_c3b6ee2ab0dfb523(RUD_AS AT64(v4, 1384));
RUD_AGAIN
}
goto L6;
L171:;
a2 = AT64(v4, 1776);
SET64(v4, 1591, a2);
a1 = AT64(v4, 1784);
SET64(v4, 1599, a1);
a0 = AT64(v4, 1792);
SET64(v4, 1607, a0);
SET64(v4, 1888, a2);
SET64(v4, 1896, a1);
SET64(v4, 1904, a0);
a0 = v16;
if (!(v9 == 0)) goto L167;
goto L7;
L170:;
in_std_alloc_vec_Vec_drop_d529bc2ce50a9423(RUD_AS v4 + 1888u);
RUD_AGAIN
goto L168;
L169:;
in_mm_memory_mm_desk_held_Held_Destruct_drop(RUD_AS v4 + 952u);
RUD_AGAIN
in_std_alloc_vec_Vec_drop_d529bc2ce50a9423(RUD_AS v4 + 1888u);
RUD_AGAIN
L168:;
if (AT8(v4, 1352) == 1u) {
in_std_alloc_arc_Arc_drop_c3b6ee2ab0dfb523(RUD_AS AT64(v4, 1384));
RUD_AGAIN
}
goto L6;
L167:;
L179:;
TEST(a0);
SET32(v4, 1336, AT32(a0, 8));
SET64(v4, 1328, AT64(a0, 0));
in_mm_control_table_ControlTable_add(RUD_AS v4 + 16u, v4 + 1888u, v4 + 1328u);
RUD_AGAIN
if (AT8(v4, 16) & 1u) goto L8;
a0 = a0 + 12u;
v9 = v9 - 1u;
if (!(v9 == 0)) goto L179;
goto L7;
L8:;
rud_trap();
L7:;
SET64(v4, 1528, 0u);
SET64(v4, 1536, 0u);
SET64(v4, 1544, 0u);
SET64(v4, 1552, 0u);
v17 = AT64(v4, 1904);
v14 = AT64(v4, 1896);
a2 = AT64(v4, 1888);
a1 = v4 + 1912u;
SET64(v4, 1520, a1);
a0 = AT64(v4, 1384);
v30 = AT8(v4, 1352);
SET64(v4, 1592, 0u);
SET64(v4, 1600, 0u);
SET64(v4, 1584, a1);
i0 = in_std_alloc_vec_Vec_move_to_7cbd3772f10b2324(RUD_AS v4 + 1584u, 5u);
RUD_AGAIN
if (i0 == 0) {
if (AT64(v4, 1600) == 0) goto L180;
rud_dealloc(RUD_AS AT64(v4, 1584));
RUD_AGAIN
goto L180;
}
v12 = AT64(v4, 1600);
SET64(v4, 967, v12);
v8 = AT64(v4, 1592);
SET64(v4, 959, v8);
a1 = AT64(v4, 1584);
SET64(v4, 951, a1);
SET64(v4, 1776, a1);
SET64(v4, 1784, v8);
SET64(v4, 1792, v12);
i0 = in_mm_service_reserve_Reserve_fill(RUD_AS v4 + 1776u);
RUD_AGAIN
if ((i0 & 255u) == 0) {
SET64(v4, 1511, AT64(v4, 1792));
SET64(v4, 1503, AT64(v4, 1784));
SET64(v4, 1495, AT64(v4, 1776));
COPY_FEW(v4 + 1422u, v4 + 1520u, 40u);
v8 = v4 + 738u;
COPY_FEW(v8, v4 + 1416u, 46u);
a1 = v4 + 1360u;
SET64(v4, 728, AT64(v4, 1376));
SET64(v4, 720, AT64(v4, 1368));
SET64(v4, 712, AT64(v4, 1360));
SET64(v4, 688, AT64(v4, 1495));
SET64(v4, 696, AT64(v4, 1503));
SET64(v4, 704, AT64(v4, 1511));
SET64(v4, 672, 0u);
SET16(v4, 680, 0u);
COPY_FEW(v4 + 626u, v8, 46u);
SET64(v4, 616, 0u);
SET64(v4, 608, 0u);
SET64(v4, 600, 0u);
SET64(v4, 904, 0u);
SET16(v4, 912, 0u);
SET64(v4, 576, AT64(v4, 712));
SET64(v4, 584, AT64(v4, 720));
SET64(v4, 592, AT64(v4, 728));
SET64(v4, 552, AT64(v4, 688));
SET64(v4, 560, AT64(v4, 696));
SET64(v4, 568, AT64(v4, 704));
COPY_FEW(v4 + 858u, v8, 46u);
SET64(v4, 848, 0u);
SET64(v4, 840, 0u);
SET64(v4, 832, 0u);
SET64(v4, 808, AT64(v4, 712));
SET64(v4, 816, AT64(v4, 720));
SET64(v4, 824, AT64(v4, 728));
SET64(v4, 784, AT64(v4, 688));
SET64(v4, 792, AT64(v4, 696));
SET64(v4, 800, AT64(v4, 704));
if (v29 == 0) {
rud_dealloc(RUD_AS a3);
RUD_AGAIN
}
if (v33 == 0) {
rud_dealloc(RUD_AS v16);
RUD_AGAIN
}
if (v31 == 0) {
rud_dealloc(RUD_AS v7);
RUD_AGAIN
}
a3 = (u64)v30 & 255u;
SET16(v4, 408, AT16(v4, 912));
SET64(v4, 400, AT64(v4, 904));
COPY_FEW(v4 + 354u, v4 + 858u, 46u);
SET64(v4, 344, AT64(v4, 848));
SET64(v4, 336, AT64(v4, 840));
SET64(v4, 328, AT64(v4, 832));
SET64(v4, 304, AT64(v4, 808));
SET64(v4, 312, AT64(v4, 816));
SET64(v4, 320, AT64(v4, 824));
SET64(v4, 280, AT64(v4, 784));
SET64(v4, 288, AT64(v4, 792));
SET64(v4, 296, AT64(v4, 800));
v35 = (u32)(v15 >> 32);
v31 = (u32)v15;
v30 = 0u;
v29 = 1u;
v34 = 0u;
goto L3;
}
SET64(v4, 1600, AT64(v4, 1792));
SET64(v4, 1592, AT64(v4, 1784));
SET64(v4, 1584, AT64(v4, 1776));
in_std_alloc_vec_Vec_clear_81505d604071a4c2(RUD_AS v4 + 1584u);
RUD_AGAIN
if (AT64(v4, 1600) == 0) goto L180;
rud_dealloc(RUD_AS AT64(v4, 1584));
RUD_AGAIN
L180:;
if (v30 == 1u) {
in_std_alloc_arc_Arc_drop_c3b6ee2ab0dfb523(RUD_AS a0);
RUD_AGAIN
}
in_std_alloc_vec_deque_VecDeque_drop_37450415a5268579(RUD_AS v4 + 1520u);
RUD_AGAIN
if (!(v5 == 0)) {
v13 = 0u;
L188:;
a0 = v15 + (v13 * 192u);
TEST(a0);
v9 = AT64(a0, 48);
v14 = AT64(a0, 40);
a1 = AT64(a0, 32);
v12 = AT64(a0, 24);
if (AT8(a0, 16) == 0) {
if (v14 == 0) goto L191;
v11 = a1 > v9 ? 0ull : a1;
a0 = v9 - v11;
v6 = a1 - a0;
v8 = v6 < v14 ? v6 : v14;
if (a0 != a1) {
a0 = (v12 + ((v9 * 40u) - (v11 * 40u))) + 32u;
a1 = v8;
L193:;
TEST(a0);
in_std_alloc_arc_Arc_drop_c3b6ee2ab0dfb523(RUD_AS AT64(a0, 0));
RUD_AGAIN
a0 = a0 + 40u;
a1 = a1 - 1u;
if (a1 != 0u) goto L193;
}
if (v6 >= v14) goto L191;
a1 = v14 - v8;
a0 = v12 + 32u;
L194:;
TEST(a0);
in_std_alloc_arc_Arc_drop_c3b6ee2ab0dfb523(RUD_AS AT64(a0, 0));
RUD_AGAIN
a0 = a0 + 40u;
a1 = a1 - 1u;
if (a1 != 0u) goto L194;
L191:;
rud_dealloc(RUD_AS v12);
RUD_AGAIN
goto L189;
}
v11 = AT64(a0, 88);
j0 = AT64(a0, 104);
j1 = AT64(a0, 64);
if (!(a1 == 0)) {
a0 = v12;
L196:;
TEST(a0);
if (AT8(a0, 0)) {
in_std_alloc_arc_Arc_drop_c3b6ee2ab0dfb523(RUD_AS AT64(a0, 40));
RUD_AGAIN
}
a0 = a0 + 48u;
a1 = a1 - 1u;
if (a1 != 0u) goto L196;
}
if (!(v14 == 0)) {
rud_dealloc(RUD_AS v12);
RUD_AGAIN
}
if (!(j1 == 0)) {
rud_dealloc(RUD_AS v9);
RUD_AGAIN
}
if (j0 == 0) goto L189;
rud_dealloc(RUD_AS v11);
RUD_AGAIN
L189:;
v13 = v13 + 1u;
if (v13 != v5) goto L188;
}
if (!(v10 == 0)) {
rud_dealloc(RUD_AS v15);
RUD_AGAIN
}
if (!(v17 == 0)) {
rud_dealloc(RUD_AS a2);
RUD_AGAIN
}
L6:;
FILL_FEW(v4 + 738u, 0u, 46u);
SET64(v4, 728, 0u);
SET64(v4, 720, 0u);
SET64(v4, 712, 0u);
SET64(v4, 688, 0u);
SET64(v4, 696, 0u);
SET64(v4, 704, 0u);
SET64(v4, 904, AT64(v4, 672));
SET16(v4, 912, AT16(v4, 680));
COPY_FEW(v4 + 858u, v4 + 626u, 46u);
SET64(v4, 848, AT64(v4, 616));
SET64(v4, 840, AT64(v4, 608));
SET64(v4, 832, AT64(v4, 600));
SET64(v4, 808, AT64(v4, 576));
SET64(v4, 816, AT64(v4, 584));
SET64(v4, 824, AT64(v4, 592));
SET64(v4, 784, AT64(v4, 552));
SET64(v4, 792, AT64(v4, 560));
SET64(v4, 800, AT64(v4, 568));
if (v29 == 0) {
rud_dealloc(RUD_AS a3);
RUD_AGAIN
}
if (v33 == 0) {
rud_dealloc(RUD_AS v16);
RUD_AGAIN
}
if (v31 == 0) {
rud_dealloc(RUD_AS v7);
RUD_AGAIN
}
SET16(v4, 408, AT16(v4, 912));
SET64(v4, 400, AT64(v4, 904));
COPY_FEW(v4 + 354u, v4 + 858u, 46u);
SET64(v4, 344, AT64(v4, 848));
SET64(v4, 336, AT64(v4, 840));
SET64(v4, 328, AT64(v4, 832));
SET64(v4, 304, AT64(v4, 808));
SET64(v4, 312, AT64(v4, 816));
SET64(v4, 320, AT64(v4, 824));
SET64(v4, 280, AT64(v4, 784));
SET64(v4, 288, AT64(v4, 792));
SET64(v4, 296, AT64(v4, 800));
v30 = 0u;
v29 = 0u;
v34 = 0u;
v31 = 0u;
v35 = 0u;
j0 = 0u;
goto L4;
L5:;
v29 = 0u;
SET16(v4, 408, 0u);
SET64(v4, 400, 0u);
FILL_FEW(v4 + 354u, 0u, 46u);
SET64(v4, 344, 0u);
SET64(v4, 336, 0u);
SET64(v4, 328, 0u);
SET64(v4, 304, 0u);
SET64(v4, 312, 0u);
SET64(v4, 320, 0u);
SET64(v4, 280, 0u);
SET64(v4, 288, 0u);
SET64(v4, 296, 0u);
j0 = 0u;
L4:;
v5 = j0;
v10 = 0u;
a2 = 0u;
v14 = 0u;
v17 = 0u;
a3 = 0u;
a0 = 0u;
L3:;
a1 = 0u;
SET64(v4, 1352, 0u);
SET16(v4, 1360, 0u);
FILL_FEW(v4 + 944u, 0u, 46u);
SET64(v4, 1600, 0u);
SET64(v4, 1592, 0u);
SET64(v4, 1584, 0u);
SET64(v4, 1776, 0u);
SET64(v4, 1784, 0u);
SET64(v4, 1792, 0u);
SET64(v4, 1416, 0u);
SET64(v4, 1424, 0u);
SET64(v4, 1432, 0u);
v13 = 0u;
v6 = 0u;
v12 = 0u;
v11 = 0u;
v9 = 0u;
v15 = 0u;
if (v29) {
SET16(v4, 1360, AT16(v4, 408));
SET64(v4, 1352, AT64(v4, 400));
COPY_FEW(v4 + 944u, v4 + 354u, 46u);
SET64(v4, 1600, AT64(v4, 344));
SET64(v4, 1592, AT64(v4, 336));
SET64(v4, 1584, AT64(v4, 328));
SET64(v4, 1776, AT64(v4, 304));
SET64(v4, 1784, AT64(v4, 312));
SET64(v4, 1792, AT64(v4, 320));
SET64(v4, 1416, AT64(v4, 280));
SET64(v4, 1424, AT64(v4, 288));
SET64(v4, 1432, AT64(v4, 296));
v13 = v10;
v6 = a2;
v12 = v14;
v11 = v17;
v9 = a3;
v15 = a0;
v30 = 0u;
v34 = 0u;
a1 = v5;
}
SET16(v4, 544, AT16(v4, 1360));
SET64(v4, 536, AT64(v4, 1352));
COPY_FEW(v4 + 490u, v4 + 944u, 46u);
SET64(v4, 480, AT64(v4, 1600));
SET64(v4, 472, AT64(v4, 1592));
SET64(v4, 464, AT64(v4, 1584));
SET64(v4, 440, AT64(v4, 1776));
SET64(v4, 448, AT64(v4, 1784));
SET64(v4, 456, AT64(v4, 1792));
SET64(v4, 416, AT64(v4, 1416));
SET64(v4, 424, AT64(v4, 1424));
SET64(v4, 432, AT64(v4, 1432));
if (v29) {
SET16(v4, 952, AT16(v4, 544));
SET64(v4, 944, AT64(v4, 536));
COPY_FEW(v4 + 954u, v4 + 490u, 46u);
in_std_heap_GlobalAllocator_allocate(RUD_AS v4, 192u, 8u);
RUD_AGAIN
a2 = (u64)v31 | ((u64)v35 << 32);
if (AT8(v4, 0) == 0) goto L209;
a0 = v4 + 224u;
COPY_FEW(a0, v4 + 944u, 56u);
COPY_FEW(v4 + 168u, a0, 56u);
SET64(v4, 136, v13);
SET64(v4, 128, a1);
SET64(v4, 120, a2);
SET64(v4, 160, AT64(v4, 432));
SET64(v4, 152, AT64(v4, 424));
SET64(v4, 144, AT64(v4, 416));
in_std_alloc_vec_Vec_drop_5b598d246d396421(RUD_AS v4 + 120u);
RUD_AGAIN
if (!(v11 == 0)) {
rud_dealloc(RUD_AS v6);
RUD_AGAIN
}
in_std_alloc_vec_deque_VecDeque_drop_af93cb7c0deb105d(RUD_AS v4 + 184u);
RUD_AGAIN
if (v9 == 1u) {
in_std_alloc_arc_Arc_drop_c3b6ee2ab0dfb523(RUD_AS v15);
RUD_AGAIN
}
in_std_alloc_vec_Vec_drop_95beaedac91b374b(RUD_AS v4 + 144u);
RUD_AGAIN
goto L208;
}
v36 = 0u;
v32 = 2u;
v29 = 32u;
v33 = 0u;
switch ((u32)((u64)v30 & 255u) - 1u) {
case 0u: goto L216;
case 1u: goto L214;
case 2u: goto L218;
case 3u: goto L217;
case 4u: goto L215;
case 5u: goto L206;
case 6u: goto L213;
default: goto L208;
}
L218:;
v32 = 0u;
i0 = 29u;
goto L207;
L217:;
v32 = 0u;
i0 = 30u;
goto L207;
L216:;
v32 = 0u;
i0 = 27u;
goto L207;
L215:;
v32 = 3u;
v29 = 31u;
v33 = v35;
goto L206;
L214:;
v36 = v35 & 255u;
v32 = 4u;
v29 = 28u;
goto L206;
L213:;
v36 = v34 & 255u;
v32 = 5u;
v29 = 33u;
v31 = 0u;
goto L206;
L209:;
a0 = AT64(v4, 8);
TEST(a0);
SET64(a0, 40, v11);
SET64(a0, 32, v12);
SET64(a0, 24, v6);
SET64(a0, 16, v13);
SET64(a0, 8, a1);
SET64(a0, 0, a2);
COPY_FEW(a0 + 48u, v4 + 944u, 56u);
SET64(a0, 128, v9);
SET64(a0, 160, v15);
SET64(a0, 120, AT64(v4, 480));
SET64(a0, 112, AT64(v4, 472));
SET64(a0, 104, AT64(v4, 464));
SET64(a0, 136, AT64(v4, 440));
SET64(a0, 144, AT64(v4, 448));
SET64(a0, 152, AT64(v4, 456));
SET64(a0, 168, AT64(v4, 416));
SET64(a0, 176, AT64(v4, 424));
SET64(a0, 184, AT64(v4, 432));
SET64(v23, 0, a0);
SET8(v23, 8, 1u);
FILL_FEW(v18, 0u, 48u);
goto L2;
L208:;
v32 = 0u;
i0 = 0u;
L207:;
v29 = i0;
v31 = 0u;
v33 = 0u;
v36 = 0u;
L206:;
TEST(v18);
SET64(v18, 40, 0u);
SET32(v18, 36, 0u);
SET32(v18, 32, v36);
SET64(v18, 24, 0u);
SET32(v18, 20, v33);
SET32(v18, 16, v31);
SET32(v18, 12, v32);
SET32(v18, 8, v29);
SET64(v18, 0, 2u);
L2:;
RUD_G0 = v4 + 1920u;
RUD_G1 = 0u;
}

static void in_mm_told_answer_tell_text(RUD_IT u64 a0, u64 a1, u64 a2, u64 a3, u64 a4) {
u32 v6 = 0, i0 = 0;
u64 v5 = 0;
RUD_HERE
v5 = RUD_G0 - 32u;
if ((s64)v5 >= (s64)16u) {
if (a2 <= a4) {
if (a2 > (a3 - a1)) {
a4 = a2;
L6:;
TEST(a1);
TEST(a3);
SET8(a3, 0, AT8(a1, 0));
a3 = a3 + 1u;
a1 = a1 + 1u;
a4 = a4 - 1u;
if (a4 != 0u) goto L6;
goto L4;
}
if (a2 == 0) goto L4;
COPY(a3, a1, a2);
L4:;
TEST(v5);
SET64(v5, 24, 0u);
SET64(v5, 16, 0u);
SET64(v5, 8, 0u);
SET64(v5, 0, 0u);
i0 = 0u;
goto L2;
}
TEST(v5);
SET64(v5, 24, 0u);
SET64(v5, 16, 0u);
SET64(v5, 8, 0u);
SET64(v5, 0, 0u);
i0 = 1u;
L2:;
v6 = i0;
TEST(a0);
SET32(a0, 4, 0u);
SET32(a0, 0, v6);
SET64(a0, 8, AT64(v5, 0));
SET64(a0, 16, AT64(v5, 8));
SET64(a0, 24, AT64(v5, 16));
SET64(a0, 32, AT64(v5, 24));
SET64(a0, 40, a2);
return;
}
rud_trap();
}

static void in_rudlayog_version(RUD_IT u64 a0, u64 a1, u64 a2) {
u32 i0 = 0;
u64 v3 = 0;
RUD_HERE
i0 = in_rattle_enter(RUD_AS0);
if (i0) {
rud_trap();
}
v3 = RUD_G0 - 48u;
RUD_G0 = v3;
if ((s64)v3 <= (s64)15u) {
rud_trap();
}
FILL_FEW(v3, 0u, 48u);
in_mm_told_answer_tell_text(RUD_AS v3, 4205544u, 5u, a0 + (a0 == 0 ? 4096ull : 0ull), a1);
COPY_FEW(a2, v3, 48u);
RUD_G0 = v3 + 48u;
RUD_G1 = 0u;
}

static void in_rudlayog_version_number(RUD_IT u64 a0) {
u32 i0 = 0;
RUD_HERE
i0 = in_rattle_enter(RUD_AS0);
if (i0) {
rud_trap();
}
if ((s64)RUD_G0 <= (s64)15u) {
rud_trap();
}
TEST(a0);
SET32(a0, 0, 400u);
RUD_G1 = 0u;
}

static void in_mm_packet_lent_LentPacket_parse(RUD_IT u64 a0, u64 a1, u64 a2) {
u32 v3 = 0, v4 = 0, v5 = 0, v6 = 0, v7 = 0;
u64 v8 = 0, v9 = 0, v10 = 0, v11 = 0, v12 = 0, v13 = 0, v14 = 0;
RUD_HERE
if ((s64)RUD_G0 >= (s64)16u) {
if (a2 < 2u) goto L2;
v9 = (a2 & 0xfffffffffffffffeull) - 2u;
if ((u32)v9 - 1u ? (u32)(v9 <= 2u) : 0u) goto L2;
TEST(a1);
v3 = AT16(a1, 0);
v5 = (v3 << 8) | (v3 >> 8);
if ((v5 & 65535u) > 8191u) {
v3 = 2u;
goto L3;
}
if ((v5 & 2047u) == 2047u) {
v3 = 3u;
goto L3;
}
if ((v5 & 2048u) == 0) {
v3 = 4u;
goto L3;
}
v3 = AT16(a1, 2);
v11 = (u64)((v3 << 8) | (v3 >> 8)) & 65535u;
if ((v11 & 49152u) == 49152u) goto L6;
v3 = 5u;
goto L3;
L6:;
v12 = a2 - 6u;
v4 = AT16(a1, 4);
v3 = (v4 << 8) | (v4 >> 8);
a2 = (u64)v3 & 65535u;
if (v12 > a2) goto L4;
goto L2;
}
rud_trap();
L4:;
if (v4 == 0) goto L11;
v10 = a2 + 1u;
if (v10 == 2u) goto L11;
v13 = a1 + 6u;
v6 = AT8(a1, 6);
v14 = (u64)AT8(a1, 7);
v9 = (u64)AT8(a1, 8);
if ((v5 & 65535u) >= 4096u) {
if ((v3 & 65535u) < 4u) goto L11;
v3 = AT16(a1, 9);
v7 = (v3 << 8) | (v3 >> 8);
a2 = a2 - 4u;
a1 = a1 + 11u;
v3 = 0u;
v4 = 0u;
goto L10;
}
if ((v3 & 65535u) < 14u) goto L11;
v8 = AT64(a1, 13);
v8 = (((v8 << 56) | ((v8 & 65280u) << 40)) | (((v8 & 16711680u) << 24) | ((v8 & 4278190080u) << 8))) | ((((v8 >> 8) & 4278190080u) | ((v8 >> 24) & 16711680u)) | (((v8 >> 40) & 65280u) | (v8 >> 56)));
v3 = AT16(a1, 11);
v4 = (v3 << 8) | (v3 >> 8);
v3 = AT16(a1, 9);
v7 = (v3 << 8) | (v3 >> 8);
a2 = a2 - 14u;
a1 = a1 + 21u;
v3 = 1u;
goto L10;
L11:;
TEST(a0);
SET16(a0, 0, 1537u);
goto L1;
L10:;
if ((v6 & 240u) != 32u) {
TEST(a0);
SET16(a0, 0, 1793u);
goto L1;
}
TEST(a0);
SET16(a0, 0, 0u);
SET64(a0, 56, v12 - v10);
SET64(a0, 48, v10 + v13);
SET64(a0, 40, a2);
SET64(a0, 32, a1);
SET64(a0, 24, v8);
SET16(a0, 22, 0u);
SET16(a0, 20, v4);
SET16(a0, 18, v7);
SET16(a0, 16, v3);
SET64(a0, 8, ((((v11 << 16) & 1073676288u) | ((u64)v5 & 2047u)) | ((v9 << 48) | (v14 << 40))) | (((u64)v6 & 15u) << 32));
return;
L3:;
TEST(a0);
SET8(a0, 0, 1u);
SET64(a0, 8, 0u);
SET8(a0, 1, v3);
SET64(a0, 16, 0u);
SET64(a0, 24, 0u);
SET64(a0, 32, 0u);
SET64(a0, 40, 0u);
SET64(a0, 48, 0u);
SET64(a0, 56, 0u);
return;
L2:;
TEST(a0);
SET16(a0, 0, 257u);
L1:;
SET64(a0, 8, 0u);
SET64(a0, 16, 0u);
SET64(a0, 24, 0u);
SET64(a0, 32, 0u);
SET64(a0, 40, 0u);
SET64(a0, 48, 0u);
SET64(a0, 56, 0u);
}

static void in_mm_st15_request_kind_RequestKind_of_code(RUD_IT u64 a0, u32 a1) {
u32 v2 = 0, v3 = 0;
u64 v4 = 0;
RUD_HERE
if ((s64)RUD_G0 >= (s64)16u) {
a1 = a1 - 1u;
if ((a1 & 255u) <= 27u) {
v4 = (u64)a1 & 255u;
v3 = GET_FAR8(v4, 4205900);
v2 = GET_FAR8(v4, 4205872);
}
TEST(a0);
SET8(a0, 1, v3);
SET8(a0, 0, v2);
return;
}
rud_trap();
}

static void in_mm_packet_octets_Octets_of(RUD_IT u64 a0, u64 a1, u64 a2) {
u32 v10 = 0, v11 = 0;
u64 v3 = 0, v4 = 0, v5 = 0, v6 = 0, v7 = 0, v8 = 0, v9 = 0, j0 = 0, j1 = 0;
RUD_HERE
v3 = RUD_G0 - 32u;
RUD_G0 = v3;
if ((s64)v3 >= (s64)16u) {
v11 = a2 == 0;
j0 = a2;
if (v11) {
j1 = v3 + 31u;
} else {
if ((s64)a2 < (s64)0u) {
v10 = 1u;
goto L2;
}
TEST(v3);
SET64(v3, 16, 0u);
SET64(v3, 8, 0u);
rud_alloc(RUD_AS v3 + 8u, a2, 1u);
RUD_AGAIN
v10 = 1u;
if ((AT8(v3, 8) & 1u) == 0) goto L2;
j1 = AT64(v3, 16);
}
v6 = j1;
if (j0 > (v6 - a1)) {
v7 = a2 & 3u;
if (a2 >= 4u) {
v4 = a2 & 0xfffffffffffffffcull;
L8:;
v8 = v5 + v6;
v9 = a1 + v5;
TEST(v9);
TEST(v8);
SET8(v8, 0, AT8(v9, 0));
SET8(v8, 1, AT8(v9, 1));
SET8(v8, 2, AT8(v9, 2));
SET8(v8, 3, AT8(v9, 3));
v5 = v5 + 4u;
if (v4 != v5) goto L8;
if (v7 == 0) goto L3;
}
v4 = v5 + v6;
v5 = a1 + v5;
L9:;
TEST(v5);
TEST(v4);
SET8(v4, 0, AT8(v5, 0));
v4 = v4 + 1u;
v5 = v5 + 1u;
v7 = v7 - 1u;
if (v7 != 0u) goto L9;
goto L3;
}
if (v11) goto L3;
COPY(v6, a1, a2);
L3:;
v4 = 0u;
TEST(v3);
SET64(v3, 16, 0u);
SET64(v3, 8, 0u);
rud_alloc(RUD_AS v3 + 8u, 32u, 8u);
RUD_AGAIN
v10 = 1u;
if (AT8(v3, 8) & 1u) {
v4 = AT64(v3, 16);
TEST(v4);
SET64(v4, 24, a2);
SET64(v4, 16, a2);
SET64(v4, 8, v6);
SET64(v4, 0, 1u);
v10 = 0u;
goto L2;
}
if (v11) goto L2;
rud_dealloc(RUD_AS v6);
RUD_AGAIN
L2:;
TEST(a0);
SET64(a0, 8, v4);
SET8(a0, 0, v10);
RUD_G0 = v3 + 32u;
return;
}
rud_trap();
}

static void in_mm_ask_line_packet_alone(RUD_IT u64 a0, u64 a1, u64 a2) {
u32 v5 = 0, v6 = 0, v7 = 0, v8 = 0, i1 = 0;
u64 v3 = 0, v4 = 0, j0 = 0;
RUD_HERE
v3 = RUD_G0 - 80u;
RUD_G0 = v3;
if ((s64)v3 >= (s64)16u) {
v4 = v3 + 16u;
FILL_FEW(v4, 0u, 64u);
in_mm_packet_lent_LentPacket_parse(RUD_AS v4, a1, a2);
j0 = a0;
TEST(v3);
if (AT8(v3, 16) == 0) {
a2 = AT64(v3, 40);
v5 = AT16(v3, 36);
v6 = AT16(v3, 34);
v7 = AT8(v3, 32);
a1 = AT64(v3, 24);
in_mm_packet_octets_Octets_of(RUD_AS v3, AT64(v3, 48), AT64(v3, 56));
RUD_AGAIN
if (AT8(v3, 0)) {
v5 = 0u;
i1 = 0u;
goto L5;
}
v4 = AT64(v3, 8);
if (!(AT64(v3, 72) == 0)) goto L4;
i1 = 0u;
goto L3;
}
v5 = AT8(v3, 17);
i1 = v5 ? 2u : 0u;
L5:;
v6 = i1;
TEST(a0);
SET8(a0, 0, 1u);
SET64(a0, 8, 0u);
SET8(a0, 2, v5);
SET8(a0, 1, v6);
SET64(a0, 16, 0u);
SET64(a0, 24, 0u);
SET64(a0, 32, 0u);
goto L1;
L4:;
in_std_alloc_arc_Arc_drop_c3b6ee2ab0dfb523(RUD_AS v4);
RUD_AGAIN
a1 = 0u;
v7 = 0u;
v6 = 0u;
v5 = 0u;
a2 = 0u;
v4 = 0u;
i1 = 1u;
L3:;
v8 = i1;
TEST(j0);
SET8(j0, 0, v8);
TEST(a0);
SET64(a0, 32, v4);
SET64(a0, 24, a2);
SET16(a0, 22, 0u);
SET16(a0, 20, v5);
SET16(a0, 18, v6);
SET16(a0, 16, v7);
SET64(a0, 8, a1);
SET8(a0, 2, 0u);
SET8(a0, 1, v8);
goto L1;
}
rud_trap();
L1:;
RUD_G0 = v3 + 80u;
}

static void in_mm_st15_counted_counted_entries_00f67b8a91c49b95(RUD_IT u64 a0, u64 a1, u64 a2) {
u32 v8 = 0, v9 = 0, v10 = 0, i0 = 0;
u64 v3 = 0, v4 = 0, v5 = 0, v6 = 0, v7 = 0;
RUD_HERE
v3 = RUD_G0 - 128u;
RUD_G0 = v3;
if ((s64)v3 < (s64)16u) goto L1;
TEST(v3);
SET64(v3, 31, 0u);
SET64(v3, 24, 0u);
SET64(v3, 16, 0u);
SET64(v3, 8, 0u);
if (a2 == 0) goto L3;
TEST(a1);
v6 = (u64)AT8(a1, 0);
if (v6 == 0) goto L3;
v7 = a2 - 1u;
if (v7 != (v6 * 12u)) goto L3;
SET64(v3, 104, 0u);
SET64(v3, 112, 0u);
SET64(v3, 96, v3 + 126u);
i0 = in_std_alloc_vec_Vec_move_to_98cf589476e368ff(RUD_AS v3 + 96u, v6);
RUD_AGAIN
if (i0 == 0) {
if (AT64(v3, 112) == 0) goto L4;
rud_dealloc(RUD_AS AT64(v3, 96));
RUD_AGAIN
goto L4;
}
a2 = a1 + 1u;
v5 = AT64(v3, 112);
SET64(v3, 64, v5);
v4 = AT64(v3, 104);
SET64(v3, 56, v4);
a1 = AT64(v3, 96);
SET64(v3, 48, a1);
SET64(v3, 72, a1);
SET64(v3, 80, v4);
SET64(v3, 88, v5);
L7:;
if ((u32)(v7 < 8u) | (u32)(v7 <= 11u)) goto L1;
TEST(a2);
a1 = AT64(a2, 0);
v8 = AT16(a2, 8);
v9 = AT8(a2, 11);
v10 = AT8(a2, 10);
v5 = AT64(v3, 80);
if (v5 == AT64(v3, 88)) {
i0 = in_std_alloc_vec_Vec_grow_amortized_98cf589476e368ff(RUD_AS v3 + 72u);
RUD_AGAIN
if (i0 == 0) goto L6;
v5 = AT64(v3, 80);
}
v4 = AT64(v3, 72) + (v5 * 12u);
TEST(v4);
SET8(v4, 11, v9);
SET8(v4, 10, v10);
SET16(v4, 8, (v8 << 8) | (v8 >> 8));
SET64(v4, 0, a1);
SET64(v3, 80, v5 + 1u);
a2 = a2 + 12u;
v7 = v7 - 12u;
v6 = v6 - 1u;
if (!(v6 == 0)) goto L7;
v4 = AT64(v3, 88);
SET64(v3, 31, v4);
a2 = AT64(v3, 80);
SET64(v3, 23, a2);
a1 = AT64(v3, 72);
SET64(v3, 15, a1);
TEST(a0);
SET16(a0, 0, 0u);
SET64(a0, 8, a1);
SET64(a0, 16, a2);
SET64(a0, 24, v4);
goto L2;
L6:;
if (AT64(v3, 88) == 0) goto L4;
rud_dealloc(RUD_AS AT64(v3, 72));
RUD_AGAIN
L4:;
TEST(a0);
SET64(a0, 8, 0u);
SET16(a0, 0, 1u);
SET64(a0, 16, 0u);
SET64(a0, 24, 0u);
goto L2;
L3:;
TEST(a0);
SET16(a0, 0, 769u);
SET64(a0, 8, 0u);
SET64(a0, 16, 0u);
SET64(a0, 24, 0u);
L2:;
RUD_G0 = v3 + 128u;
return;
L1:;
rud_trap();
}

static u32 in_std_alloc_vec_Vec_move_to_b6ba752709f1c5bb(RUD_IT u64 a0, u64 a1) {
u32 v4 = 0, v5 = 0;
u64 v2 = 0, v3 = 0, j0 = 0;
RUD_HERE
v2 = RUD_G0 - 32u;
RUD_G0 = v2;
if ((s64)v2 >= (s64)16u) {
if (a1 >= 384307168202282326ull) goto L2;
TEST(a0);
if (!(AT64(a0, 16) == 0)) {
in_std_heap_GlobalAllocator_grow_483ec8513fd57e54(RUD_AS v2 + 16u, AT64(a0, 0), AT64(a0, 8), a1);
RUD_AGAIN
TEST(v2);
v5 = AT8(v2, 16);
j0 = AT64(v2, 24);
goto L3;
}
in_std_heap_GlobalAllocator_allocate(RUD_AS v2, a1 * 24u, 8u);
RUD_AGAIN
TEST(v2);
v5 = AT8(v2, 0);
j0 = v5 ? 0ull : AT64(v2, 8);
L3:;
v3 = j0;
if (v5) goto L2;
SET64(a0, 16, a1);
SET64(a0, 0, v3);
v4 = 1u;
L2:;
RUD_G0 = v2 + 32u;
return v4;
}
rud_trap();
return 0;
}

static u32 in_std_alloc_vec_Vec_grow_amortized_b6ba752709f1c5bb(RUD_IT u64 a0) {
u32 v4 = 0;
u64 v1 = 0, v2 = 0, v3 = 0, j0 = 0;
RUD_HERE
v2 = RUD_G0;
if ((s64)v2 >= (s64)16u) {
TEST(a0);
v1 = AT64(a0, 8);
if (v1 == 0xffffffffffffffffull) {
goto L1;
}
v1 = (v1 > 3u ? v1 : 3ull) + 1u;
j0 = a0;
a0 = AT64(a0, 16);
v3 = a0 << 1;
v4 = in_std_alloc_vec_Vec_move_to_b6ba752709f1c5bb(RUD_AS j0, a0 < 4611686018427387904ull ? (v1 > v3 ? v1 : v3) : v1);
RUD_AGAIN
goto L1;
}
rud_trap();
return 0;
L1:;
RUD_G0 = v2;
return v4;
}

static u32 in_byn_mgfn_shared_std_alloc_vec_Vec_move_to_8f93ed18667da11d(RUD_IT u64 a0, u64 a1, u64 a2, u64 a3, u64 a4) {
u32 v10 = 0, v11 = 0;
u64 v5 = 0, v6 = 0, v7 = 0, v8 = 0, v9 = 0, j0 = 0;
RUD_HERE
v6 = RUD_G0 - 32u;
RUD_G0 = v6;
if ((s64)v6 >= (s64)16u) {
if (a1 >= a4) goto L2;
TEST(a0);
if (!(AT64(a0, 16) == 0)) {
v7 = v6 + 16u;
v8 = AT64(a0, 0);
v9 = AT64(a0, 8);
v5 = RUD_G0 - 16u;
RUD_G0 = v5;
if ((s64)v5 >= (s64)16u) {
TEST(v5);
SET64(v5, 8, 0u);
SET64(v5, 0, 0u);
rud_realloc(RUD_AS v5, v8, v9 << (a3 & 63), a1 << (a3 & 63), a2);
RUD_AGAIN
v10 = AT8(v5, 0);
TEST(v7);
SET64(v7, 8, v10 ? AT64(v5, 8) : 0ull);
SET8(v7, 0, v10 ^ 1u);
RUD_G0 = v5 + 16u;
goto L5;
}
rud_trap();
return 0;
L5:;
v10 = AT8(v7, 0);
j0 = AT64(v7, 8);
goto L3;
}
in_std_heap_GlobalAllocator_allocate(RUD_AS v6, a1 << (a3 & 63), a2);
RUD_AGAIN
TEST(v6);
v10 = AT8(v6, 0);
j0 = v10 ? 0ull : AT64(v6, 8);
L3:;
v5 = j0;
if (v10) goto L2;
SET64(a0, 16, a1);
SET64(a0, 0, v5);
v11 = 1u;
L2:;
RUD_G0 = v6 + 32u;
return v11;
}
rud_trap();
return 0;
}

static u32 in_std_alloc_vec_Vec_move_to_8f93ed18667da11d(RUD_IT u64 a0, u64 a1) {
u32 i0 = 0;
RUD_NONE
i0 = in_byn_mgfn_shared_std_alloc_vec_Vec_move_to_8f93ed18667da11d(RUD_AS a0, a1, 8u, 4u, 576460752303423488ull);
return i0;
}

static u32 in_std_alloc_vec_Vec_grow_amortized_8f93ed18667da11d(RUD_IT u64 a0) {
u32 v4 = 0;
u64 v1 = 0, v2 = 0, v3 = 0, j0 = 0;
RUD_HERE
v2 = RUD_G0;
if ((s64)v2 >= (s64)16u) {
TEST(a0);
v1 = AT64(a0, 8);
if (v1 == 0xffffffffffffffffull) {
goto L1;
}
v1 = (v1 > 3u ? v1 : 3ull) + 1u;
j0 = a0;
a0 = AT64(a0, 16);
v3 = a0 << 1;
v4 = in_std_alloc_vec_Vec_move_to_8f93ed18667da11d(RUD_AS j0, a0 < 4611686018427387904ull ? (v1 > v3 ? v1 : v3) : v1);
RUD_AGAIN
goto L1;
}
rud_trap();
return 0;
L1:;
RUD_G0 = v2;
return v4;
}

static void in_byn_mgfn_shared_std_heap_GlobalAllocator_grow_35_mm_st15_instruc(RUD_IT u64 a0, u64 a1, u64 a2, u64 a3, u64 a4, u64 a5) {
u32 v7 = 0;
u64 v6 = 0;
RUD_HERE
v6 = RUD_G0 - 16u;
RUD_G0 = v6;
if ((s64)v6 >= (s64)16u) {
TEST(v6);
SET64(v6, 8, 0u);
SET64(v6, 0, 0u);
rud_realloc(RUD_AS v6, a1, a2 << (a5 & 63), a3 << (a5 & 63), a4);
RUD_AGAIN
v7 = AT8(v6, 0);
TEST(a0);
SET64(a0, 8, v7 ? AT64(v6, 8) : 0ull);
SET8(a0, 0, v7 ^ 1u);
RUD_G0 = v6 + 16u;
return;
}
rud_trap();
}

static void in_std_heap_GlobalAllocator_grow_35_mm_st15_instruction_Configurati(RUD_IT u64 a0, u64 a1, u64 a2, u64 a3) {
RUD_NONE
in_byn_mgfn_shared_std_heap_GlobalAllocator_grow_35_mm_st15_instruc(RUD_AS a0, a1, a2, a3, 4u, 4u);
}

static u32 in_std_alloc_vec_Vec_move_to_baf47378b5fee3d3(RUD_IT u64 a0, u64 a1) {
u32 v4 = 0, v5 = 0;
u64 v2 = 0, v3 = 0, j0 = 0;
RUD_HERE
v2 = RUD_G0 - 32u;
RUD_G0 = v2;
if ((s64)v2 >= (s64)16u) {
if (a1 >= 576460752303423488ull) goto L2;
TEST(a0);
if (!(AT64(a0, 16) == 0)) {
in_std_heap_GlobalAllocator_grow_35_mm_st15_instruction_Configurati(RUD_AS v2 + 16u, AT64(a0, 0), AT64(a0, 8), a1);
RUD_AGAIN
TEST(v2);
v5 = AT8(v2, 16);
j0 = AT64(v2, 24);
goto L3;
}
in_std_heap_GlobalAllocator_allocate(RUD_AS v2, a1 << 4, 4u);
RUD_AGAIN
TEST(v2);
v5 = AT8(v2, 0);
j0 = v5 ? 0ull : AT64(v2, 8);
L3:;
v3 = j0;
if (v5) goto L2;
SET64(a0, 16, a1);
SET64(a0, 0, v3);
v4 = 1u;
L2:;
RUD_G0 = v2 + 32u;
return v4;
}
rud_trap();
return 0;
}

static u32 in_std_alloc_vec_Vec_grow_amortized_baf47378b5fee3d3(RUD_IT u64 a0) {
u32 v4 = 0;
u64 v1 = 0, v2 = 0, v3 = 0, j0 = 0;
RUD_HERE
v2 = RUD_G0;
if ((s64)v2 >= (s64)16u) {
TEST(a0);
v1 = AT64(a0, 8);
if (v1 == 0xffffffffffffffffull) {
goto L1;
}
v1 = (v1 > 3u ? v1 : 3ull) + 1u;
j0 = a0;
a0 = AT64(a0, 16);
v3 = a0 << 1;
v4 = in_std_alloc_vec_Vec_move_to_baf47378b5fee3d3(RUD_AS j0, a0 < 4611686018427387904ull ? (v1 > v3 ? v1 : v3) : v1);
RUD_AGAIN
goto L1;
}
rud_trap();
return 0;
L1:;
RUD_G0 = v2;
return v4;
}

static void in_mm_st15_counted_counted_entries_93728722e2cdf027(RUD_IT u64 a0, u32 a1, u64 a2, u64 a3) {
u32 v9 = 0, v10 = 0, i0 = 0;
u64 v4 = 0, v5 = 0, v6 = 0, v7 = 0, v8 = 0;
RUD_HERE
v4 = RUD_G0 - 112u;
RUD_G0 = v4;
if ((s64)v4 < (s64)16u) goto L1;
if (a3 == 0) goto L5;
TEST(a2);
v9 = AT8(a2, 0);
if (v9 < (a1 & 255u)) goto L5;
v7 = a3 - 1u;
v8 = (u64)v9;
if (v7 != (v8 * 14u)) goto L5;
TEST(v4);
SET64(v4, 88, 0u);
SET64(v4, 96, 0u);
SET64(v4, 80, v4 + 108u);
if (v9 == 0) goto L4;
i0 = in_std_alloc_vec_Vec_move_to_baf47378b5fee3d3(RUD_AS v4 + 80u, v8);
RUD_AGAIN
if (i0 == 0) {
if (AT64(v4, 96) == 0) goto L6;
rud_dealloc(RUD_AS AT64(v4, 80));
RUD_AGAIN
goto L6;
}
a3 = a2 + 1u;
v6 = AT64(v4, 96);
SET64(v4, 48, v6);
v5 = AT64(v4, 88);
SET64(v4, 40, v5);
a2 = AT64(v4, 80);
SET64(v4, 32, a2);
SET64(v4, 56, a2);
SET64(v4, 64, v5);
SET64(v4, 72, v6);
L8:;
if ((u32)(v7 < 8u) | (u32)(v7 <= 13u)) goto L1;
TEST(a3);
a2 = AT64(a3, 0);
v10 = AT32(a3, 8);
v9 = AT8(a3, 13);
a1 = AT8(a3, 12);
v5 = AT64(v4, 64);
if (v5 == AT64(v4, 72)) {
i0 = in_std_alloc_vec_Vec_grow_amortized_baf47378b5fee3d3(RUD_AS v4 + 56u);
RUD_AGAIN
if (i0 == 0) goto L9;
v5 = AT64(v4, 64);
}
v6 = AT64(v4, 56) + (v5 << 4);
TEST(v6);
SET16(v6, 14, 0u);
SET8(v6, 13, v9);
SET8(v6, 12, a1);
SET32(v6, 8, (rud_rotr32(v10, 24u) & 16711935u) | rud_rotr32((v10 & 16711935u), 8u));
SET64(v6, 0, a2);
SET64(v4, 64, v5 + 1u);
a3 = a3 + 14u;
v7 = v7 - 14u;
v8 = v8 - 1u;
if (!(v8 == 0)) goto L8;
goto L3;
L9:;
if (AT64(v4, 72) == 0) goto L6;
rud_dealloc(RUD_AS AT64(v4, 56));
RUD_AGAIN
L6:;
TEST(a0);
SET64(a0, 8, 0u);
SET16(a0, 0, 1u);
SET64(a0, 16, 0u);
SET64(a0, 24, 0u);
goto L2;
L5:;
TEST(a0);
SET16(a0, 0, 769u);
SET64(a0, 8, 0u);
SET64(a0, 16, 0u);
SET64(a0, 24, 0u);
goto L2;
L4:;
v5 = AT64(v4, 96);
SET64(v4, 48, v5);
a3 = AT64(v4, 88);
SET64(v4, 40, a3);
a2 = AT64(v4, 80);
SET64(v4, 32, a2);
SET64(v4, 56, a2);
SET64(v4, 64, a3);
SET64(v4, 72, v5);
L3:;
v5 = AT64(v4, 72);
SET64(v4, 16, v5);
a3 = AT64(v4, 64);
SET64(v4, 8, a3);
a2 = AT64(v4, 56);
SET64(v4, 0, a2);
TEST(a0);
SET16(a0, 0, 0u);
SET64(a0, 8, a2);
SET64(a0, 16, a3);
SET64(a0, 24, v5);
L2:;
RUD_G0 = v4 + 112u;
return;
L1:;
rud_trap();
}

static u32 in_byn_mgfn_shared_std_alloc_vec_Vec_move_to_2e6a255000427900(RUD_IT u64 a0, u64 a1, u64 a2, u64 a3, u64 a4) {
u32 v10 = 0, v11 = 0;
u64 v5 = 0, v6 = 0, v7 = 0, v8 = 0, v9 = 0, j0 = 0;
RUD_HERE
v6 = RUD_G0 - 32u;
RUD_G0 = v6;
if ((s64)v6 >= (s64)16u) {
if (a1 >= a4) goto L2;
TEST(a0);
if (!(AT64(a0, 16) == 0)) {
v7 = v6 + 16u;
v8 = AT64(a0, 0);
v9 = AT64(a0, 8);
v5 = RUD_G0 - 16u;
RUD_G0 = v5;
if ((s64)v5 >= (s64)16u) {
TEST(v5);
SET64(v5, 8, 0u);
SET64(v5, 0, 0u);
rud_realloc(RUD_AS v5, v8, v9 * a3, a1 * a3, a2);
RUD_AGAIN
v10 = AT8(v5, 0);
TEST(v7);
SET64(v7, 8, v10 ? AT64(v5, 8) : 0ull);
SET8(v7, 0, v10 ^ 1u);
RUD_G0 = v5 + 16u;
goto L5;
}
rud_trap();
return 0;
L5:;
v10 = AT8(v7, 0);
j0 = AT64(v7, 8);
goto L3;
}
in_std_heap_GlobalAllocator_allocate(RUD_AS v6, a1 * a3, a2);
RUD_AGAIN
TEST(v6);
v10 = AT8(v6, 0);
j0 = v10 ? 0ull : AT64(v6, 8);
L3:;
v5 = j0;
if (v10) goto L2;
SET64(a0, 16, a1);
SET64(a0, 0, v5);
v11 = 1u;
L2:;
RUD_G0 = v6 + 32u;
return v11;
}
rud_trap();
return 0;
}

static u32 in_std_alloc_vec_Vec_move_to_2e6a255000427900(RUD_IT u64 a0, u64 a1) {
u32 i0 = 0;
RUD_NONE
i0 = in_byn_mgfn_shared_std_alloc_vec_Vec_move_to_2e6a255000427900(RUD_AS a0, a1, 4u, 12u, 768614336404564651ull);
return i0;
}

static u32 in_std_alloc_vec_Vec_grow_amortized_2e6a255000427900(RUD_IT u64 a0) {
u32 v4 = 0;
u64 v1 = 0, v2 = 0, v3 = 0, j0 = 0;
RUD_HERE
v2 = RUD_G0;
if ((s64)v2 >= (s64)16u) {
TEST(a0);
v1 = AT64(a0, 8);
if (v1 == 0xffffffffffffffffull) {
goto L1;
}
v1 = (v1 > 3u ? v1 : 3ull) + 1u;
j0 = a0;
a0 = AT64(a0, 16);
v3 = a0 << 1;
v4 = in_std_alloc_vec_Vec_move_to_2e6a255000427900(RUD_AS j0, a0 < 4611686018427387904ull ? (v1 > v3 ? v1 : v3) : v1);
RUD_AGAIN
goto L1;
}
rud_trap();
return 0;
L1:;
RUD_G0 = v2;
return v4;
}

static u32 in_std_alloc_vec_Vec_move_to_6469b56b2f1a679e(RUD_IT u64 a0, u64 a1) {
u32 i0 = 0;
RUD_NONE
i0 = in_byn_mgfn_shared_std_alloc_vec_Vec_move_to_8f93ed18667da11d(RUD_AS a0, a1, 1u, 3u, 1152921504606846976ull);
return i0;
}

static u32 in_std_alloc_vec_Vec_grow_amortized_6469b56b2f1a679e(RUD_IT u64 a0) {
u32 v4 = 0;
u64 v1 = 0, v2 = 0, v3 = 0, j0 = 0;
RUD_HERE
v2 = RUD_G0;
if ((s64)v2 >= (s64)16u) {
TEST(a0);
v1 = AT64(a0, 8);
if (v1 == 0xffffffffffffffffull) {
goto L1;
}
v1 = (v1 > 3u ? v1 : 3ull) + 1u;
j0 = a0;
a0 = AT64(a0, 16);
v3 = a0 << 1;
v4 = in_std_alloc_vec_Vec_move_to_6469b56b2f1a679e(RUD_AS j0, a0 < 4611686018427387904ull ? (v1 > v3 ? v1 : v3) : v1);
RUD_AGAIN
goto L1;
}
rud_trap();
return 0;
L1:;
RUD_G0 = v2;
return v4;
}

static void in_mm_st15_counted_counted_entries_65c131a536ad0a17(RUD_IT u64 a0, u64 a1, u64 a2) {
u32 i0 = 0;
u64 v3 = 0, v4 = 0, v5 = 0, v6 = 0, v7 = 0;
RUD_HERE
v3 = RUD_G0 - 112u;
RUD_G0 = v3;
if ((s64)v3 < (s64)16u) goto L1;
if (a2 == 0) goto L3;
TEST(a1);
v5 = (u64)AT8(a1, 0);
if (v5 == 0) goto L3;
a2 = a2 - 1u;
if (a2 != (v5 << 3)) goto L3;
TEST(v3);
SET64(v3, 88, 0u);
SET64(v3, 96, 0u);
SET64(v3, 80, v3 + 111u);
i0 = in_std_alloc_vec_Vec_move_to_6469b56b2f1a679e(RUD_AS v3 + 80u, v5);
RUD_AGAIN
if (i0 == 0) {
if (AT64(v3, 96) == 0) goto L4;
rud_dealloc(RUD_AS AT64(v3, 80));
RUD_AGAIN
goto L4;
}
v6 = a1 + 1u;
v7 = AT64(v3, 96);
SET64(v3, 48, v7);
v4 = AT64(v3, 88);
SET64(v3, 40, v4);
a1 = AT64(v3, 80);
SET64(v3, 32, a1);
SET64(v3, 56, a1);
SET64(v3, 64, v4);
SET64(v3, 72, v7);
L7:;
if (a2 <= 7u) goto L1;
TEST(v6);
v4 = AT64(v6, 0);
a1 = AT64(v3, 64);
if (a1 == AT64(v3, 72)) {
i0 = in_std_alloc_vec_Vec_grow_amortized_6469b56b2f1a679e(RUD_AS v3 + 56u);
RUD_AGAIN
if (i0 == 0) goto L6;
a1 = AT64(v3, 64);
}
v6 = v6 + 8u;
PUT64(AT64(v3, 56) + (a1 << 3), 0, v4);
SET64(v3, 64, a1 + 1u);
a2 = a2 - 8u;
v5 = v5 - 1u;
if (!(v5 == 0)) goto L7;
v4 = AT64(v3, 72);
SET64(v3, 16, v4);
a2 = AT64(v3, 64);
SET64(v3, 8, a2);
a1 = AT64(v3, 56);
SET64(v3, 0, a1);
TEST(a0);
SET16(a0, 0, 0u);
SET64(a0, 8, a1);
SET64(a0, 16, a2);
SET64(a0, 24, v4);
goto L2;
L6:;
if (AT64(v3, 72) == 0) goto L4;
rud_dealloc(RUD_AS AT64(v3, 56));
RUD_AGAIN
L4:;
TEST(a0);
SET64(a0, 8, 0u);
SET16(a0, 0, 1u);
SET64(a0, 16, 0u);
SET64(a0, 24, 0u);
goto L2;
L3:;
TEST(a0);
SET16(a0, 0, 769u);
SET64(a0, 8, 0u);
SET64(a0, 16, 0u);
SET64(a0, 24, 0u);
L2:;
RUD_G0 = v3 + 112u;
return;
L1:;
rud_trap();
}

static u32 in_std_alloc_vec_Vec_move_to_66712223a0a96b53(RUD_IT u64 a0, u64 a1) {
u32 i0 = 0;
RUD_NONE
i0 = in_byn_mgfn_shared_std_alloc_vec_Vec_move_to_2e6a255000427900(RUD_AS a0, a1, 1u, 9u, 1024819115206086201ull);
return i0;
}

static u32 in_std_alloc_vec_Vec_grow_amortized_66712223a0a96b53(RUD_IT u64 a0) {
u32 v4 = 0;
u64 v1 = 0, v2 = 0, v3 = 0, j0 = 0;
RUD_HERE
v2 = RUD_G0;
if ((s64)v2 >= (s64)16u) {
TEST(a0);
v1 = AT64(a0, 8);
if (v1 == 0xffffffffffffffffull) {
goto L1;
}
v1 = (v1 > 3u ? v1 : 3ull) + 1u;
j0 = a0;
a0 = AT64(a0, 16);
v3 = a0 << 1;
v4 = in_std_alloc_vec_Vec_move_to_66712223a0a96b53(RUD_AS j0, a0 < 4611686018427387904ull ? (v1 > v3 ? v1 : v3) : v1);
RUD_AGAIN
goto L1;
}
rud_trap();
return 0;
L1:;
RUD_G0 = v2;
return v4;
}

static void in_mm_memory_validation_id_of(RUD_IT u64 a0, u64 a1) {
u32 v9 = 0, v10 = 0, v11 = 0, i0 = 0;
u64 v2 = 0, v3 = 0, v4 = 0, v5 = 0, v6 = 0, v7 = 0, v8 = 0, j0 = 0;
RUD_HERE
v3 = RUD_G0 - 32u;
RUD_G0 = v3;
if ((s64)v3 >= (s64)16u) {
TEST(a1);
v6 = AT64(a1, 0);
TEST(v3);
SET64(v3, 8, v6);
L6:;
if (GET8((v3 + 8u) + v2, 0) != 32u) {
a1 = 8u;
v2 = v2 + 1u;
if (v2 != 8u) goto L6;
goto L5;
}
a1 = v2;
if ((a1 - 1u) > 7u) goto L4;
L5:;
v2 = 0u;
L8:;
if (a1 != v2) {
j0 = (v3 + 8u) + v2;
v2 = v2 + 1u;
TEST(j0);
v9 = AT8(j0, 0);
v10 = v9 - 48u;
if (((u32)(v9 == 45u) | (u32)(v9 == 95u)) | ((u32)(((v9 - 65u) & 255u) < 26u) | (u32)((v10 & 255u) < 10u))) goto L8;
goto L4;
}
SET64(v3, 24, 2314885530818453536ull);
if (!(a1 == 0)) {
COPY(v3 + 24u, v3 + 8u, a1);
}
SET64(v3, 16, AT64(v3, 24));
v2 = v3 + 16u;
v4 = v3 + 8u;
v9 = 0u;
v10 = 0u;
a1 = RUD_G0 - 32u;
RUD_G0 = a1;
if ((s64)a1 >= (s64)16u) {
TEST(a1);
SET64(a1, 24, 8u);
SET64(a1, 16, v4);
SET64(a1, 8, 8u);
SET64(a1, 0, v2);
if ((s64)RUD_G0 >= (s64)16u) {
v5 = 4u;
v7 = AT64(a1, 16);
v2 = v7;
v8 = AT64(a1, 0);
v4 = v8;
L15:;
TEST(v4);
TEST(v2);
v9 = v9 | (u32)(AT8(v4, 0) != AT8(v2, 0));
v2 = v2 + 1u;
v4 = v4 + 1u;
v5 = v5 - 1u;
if (v5 != 0u) goto L15;
v4 = v8 + 8u;
v5 = v7 + 8u;
v2 = 0xfffffffffffffffcull;
L16:;
v10 = v10 | (u32)(GET8(v2 + v4, 0) != GET8(v2 + v5, 0));
v2 = v2 + 1u;
if (v2 != 0u) goto L16;
i0 = (v9 | v10) & 1u;
goto L13;
}
rud_trap();
L13:;
RUD_G0 = a1 + 32u;
i0 = i0 ^ 1u;
goto L11;
}
rud_trap();
L11:;
if (i0) goto L3;
L4:;
v9 = 0u;
v10 = 1u;
v11 = 1u;
j0 = 0u;
goto L2;
L3:;
v9 = (u32)(v6 >> 8);
v11 = (u32)v6;
v10 = 0u;
j0 = v6 >> 16;
L2:;
a1 = j0;
TEST(a0);
SET8(a0, 0, v10);
SET16(a0, 7, (u32)(a1 >> 32));
SET32(a0, 3, (u32)a1);
SET8(a0, 2, v9);
SET8(a0, 1, v11);
RUD_G0 = v3 + 32u;
return;
}
rud_trap();
}

static void in_mm_memory_validation_parsed(RUD_IT u64 a0, u64 a1, u64 a2) {
u32 v7 = 0, v8 = 0, v9 = 0, v10 = 0, v11 = 0, v12 = 0;
u64 v3 = 0, v4 = 0, v5 = 0, v6 = 0;
RUD_HERE
v3 = RUD_G0 - 48u;
RUD_G0 = v3;
TEST(a1);
TEST(v3);
SET64(v3, 24, AT64(a1, 0));
if ((s64)v3 >= (s64)16u) {
TEST(a2);
v5 = AT64(a2, 32);
v6 = AT64(a2, 24);
v8 = AT32(a2, 20);
v9 = AT8(a2, 9);
v10 = AT8(a2, 8);
v11 = AT8(a2, 2);
v12 = AT8(a2, 1);
v7 = AT8(a2, 0);
SET8(v3, 16, 0u);
SET64(v3, 8, 0u);
in_mm_memory_validation_id_of(RUD_AS v3 + 8u, v3 + 24u);
v4 = AT64(v3, 9);
if (AT8(v3, 8) == 0) {
if (v7) goto L3;
a1 = a2 + 10u;
v7 = AT16(a2, 18);
a1 = AT64(a2, 10);
TEST(a0);
SET8(a0, 17, v9);
SET8(a0, 16, v10);
SET64(a0, 8, v4);
SET8(a0, 2, 0u);
SET16(a0, 0, 0u);
SET64(a0, 18, a1);
SET16(a0, 26, v7);
SET64(a0, 40, v5);
SET64(a0, 32, v6);
SET32(a0, 28, v8);
SET16(v3, 40, v7);
SET64(v3, 32, a1);
goto L1;
}
TEST(a0);
SET8(a0, 0, 1u);
SET8(a0, 2, (u32)(v4 >> 8));
SET8(a0, 1, (u32)v4);
FILL_FEW(a0 + 8u, 0u, 40u);
goto L1;
L3:;
TEST(a0);
SET8(a0, 0, 1u);
SET8(a0, 2, v11);
SET8(a0, 1, v12);
FILL_FEW(a0 + 8u, 0u, 40u);
goto L1;
}
rud_trap();
L1:;
RUD_G0 = v3 + 48u;
}

static u32 in_std_alloc_vec_Vec_grow_amortized_c7528f268d97bc21(RUD_IT u64 a0, u64 a1) {
u32 v6 = 0;
u64 v2 = 0, v3 = 0, v4 = 0, v5 = 0, j0 = 0, j1 = 0;
RUD_HERE
(void)j0;
v2 = RUD_G0 - 32u;
RUD_G0 = v2;
if ((s64)v2 >= (s64)16u) {
TEST(a0);
v4 = AT64(a0, 8);
if (a1 > (v4 ^ 0xffffffffffffffffull)) goto L2;
a1 = a1 + v4;
v3 = a1 > 4u ? a1 : 4ull;
v5 = AT64(a0, 16);
a1 = v5 << 1;
a1 = a1 < v3 ? v3 : a1;
v3 = v5 < 4611686018427387904ull ? a1 : v3;
if (v3 > 192153584101141162ull) goto L2;
j0 = a0;
if (!(v5 == 0)) {
a1 = AT64(a0, 0);
TEST(v2);
SET64(v2, 24, 0u);
SET64(v2, 16, 0u);
rud_realloc(RUD_AS v2 + 16u, a1, v4 * 48u, v3 * 48u, 8u);
RUD_AGAIN
if (AT8(v2, 16) == 0) goto L2;
j1 = AT64(v2, 24);
goto L3;
}
in_std_heap_GlobalAllocator_allocate(RUD_AS v2, a1 * 48u, 8u);
RUD_AGAIN
TEST(v2);
if (AT8(v2, 0)) goto L2;
j1 = AT64(v2, 8);
L3:;
SET64(a0, 0, j1);
SET64(a0, 16, v3);
v6 = 1u;
L2:;
RUD_G0 = v2 + 32u;
return v6;
}
rud_trap();
return 0;
}

static u32 in_std_alloc_vec_Vec_grow_by_hint_c7528f268d97bc21(RUD_IT u64 a0, u64 a1) {
u32 v2 = 0, i0 = 0;
u64 v3 = 0;
RUD_HERE
v3 = RUD_G0;
if ((s64)v3 >= (s64)16u) {
v2 = 1u;
a1 = a1 + 1u;
a1 = a1 == 0 ? 18446744073709551615ull : a1;
TEST(a0);
if (a1 <= (AT64(a0, 16) - AT64(a0, 8))) goto L2;
i0 = in_std_alloc_vec_Vec_grow_amortized_c7528f268d97bc21(RUD_AS a0, a1);
RUD_AGAIN
if (i0) goto L2;
if (AT64(a0, 16) != AT64(a0, 8)) goto L2;
v2 = in_std_alloc_vec_Vec_grow_amortized_c7528f268d97bc21(RUD_AS a0, 1u);
RUD_AGAIN
L2:;
RUD_G0 = v3;
return v2;
}
rud_trap();
return 0;
}

static void in_mm_memory_request_each_efff6ba37075a2ab(RUD_IT u64 a0, u64 a1, u32 a2) {
u32 v25 = 0, v26 = 0, v27 = 0, v28 = 0, v29 = 0, i0 = 0;
u64 v3 = 0, v4 = 0, v5 = 0, v6 = 0, v7 = 0, v8 = 0, v9 = 0, v10 = 0, v11 = 0, v12 = 0, v13 = 0, v14 = 0;
u64 v15 = 0, v16 = 0, v17 = 0, v18 = 0, v19 = 0, v20 = 0, v21 = 0, v22 = 0, v23 = 0, v24 = 0;
RUD_HERE
(void)v12;
(void)v18;
(void)v9;
v3 = RUD_G0 - 560u;
RUD_G0 = v3;
if ((s64)v3 >= (s64)16u) {
TEST(v3);
SET64(v3, 31, 0u);
SET64(v3, 24, 0u);
SET64(v3, 16, 0u);
SET64(v3, 8, 0u);
TEST(a1);
v5 = AT64(a1, 8);
v6 = AT64(a1, 0);
SET64(v3, 63, 0u);
SET64(v3, 56, 0u);
SET64(v3, 48, 0u);
SET64(v3, 40, 0u);
SET64(v3, 72, v3 + 552u);
FILL_FEW(v3 + 96u, 0u, 45u);
FILL_FEW(v3 + 186u, 0u, 45u);
SET64(v3, 88, 0u);
SET64(v3, 80, 0u);
FILL_FEW(v3 + 276u, 0u, 45u);
FILL_FEW(v3 + 231u, 0u, 45u);
if (v5 == 0) goto L4;
v19 = v3 + 101u;
v20 = v3 + 191u;
v21 = v3 + 146u;
v22 = v3 + 281u;
v11 = v3 + 236u;
v15 = v3 + 326u;
v16 = v3 + 371u;
v17 = v3 + 416u;
v23 = v3 + 512u;
v12 = v3 + 476u;
v9 = v3 + 470u;
v10 = (v3 + 456u) | 3u;
v18 = v3 + 80u;
a1 = v3 + 552u;
L5:;
v14 = v4 - v13;
a1 = a1 + (v4 * 48u);
v8 = 0u;
L7:;
v25 = 0u;
FILL_FEW(v3 + 504u, 0u, 48u);
SET64(v3, 472, 0u);
SET64(v3, 464, 0u);
SET64(v3, 456, 0u);
TEST(v6);
SET64(v3, 496, AT64(v6, 0));
v26 = AT16(v6, 8);
if (v26 <= 2046u) {
v27 = AT8(v6, 11);
TEST(v10);
i0 = AT8(v6, 10);
SET8(v10, 4, 0u);
SET32(v10, 0, 0u);
SET32(v3, 470, 0u);
SET16(v3, 474, 0u);
v26 = ((i0 << 16) | v26) | (v27 << 24);
v27 = 2u;
v29 = 0u;
v25 = a2;
i0 = 0u;
goto L8;
}
TEST(v10);
SET8(v10, 4, 0u);
SET32(v10, 0, 0u);
SET32(v3, 470, 0u);
SET16(v3, 474, 0u);
v29 = 2u;
v27 = 0u;
v26 = 0u;
i0 = 1u;
L8:;
v28 = i0;
SET64(v3, 476, 0u);
SET64(v3, 484, 0u);
SET32(v3, 492, 0u);
SET32(v3, 466, v26);
SET8(v3, 465, v25);
SET8(v3, 464, v27);
SET8(v3, 458, 0u);
SET8(v3, 457, v29);
SET8(v3, 456, v28);
in_mm_memory_validation_parsed(RUD_AS v3 + 504u, v3 + 496u, v3 + 456u);
v25 = AT8(v3, 506);
v28 = AT8(v3, 505);
v26 = AT8(v3, 504);
COPY_FEW(v17, v23, 40u);
COPY_FEW(v16, v17, 40u);
COPY_FEW(v15, v16, 40u);
COPY_FEW(v11, v15, 40u);
if ((v8 + v14) == 0) goto L6;
TEST(a1);
SET8(a1, 0, v26);
SET8(a1, 2, v25);
SET8(a1, 1, v28);
COPY_FEW(a1 + 8u, v11, 40u);
v6 = v6 + 12u;
a1 = a1 + 48u;
v8 = v8 + 1u;
if (v5 != v8) goto L7;
v4 = v4 + v8;
goto L4;
L6:;
COPY_FEW(v22, v11, 40u);
COPY_FEW(v3 + 141u, v3 + 276u, 45u);
SET64(v3, 88, v7);
SET64(v3, 80, v13);
COPY_FEW(v20, v21, 40u);
COPY_FEW(v3 + 96u, v3 + 186u, 45u);
v14 = (v8 ^ 0xffffffffffffffffull) + v5;
i0 = in_std_alloc_vec_Vec_grow_by_hint_c7528f268d97bc21(RUD_AS v3 + 72u, v14);
RUD_AGAIN
if (i0 == 0) goto L3;
v6 = v6 + 12u;
v24 = v5 - 1u;
a1 = AT64(v3, 72);
v4 = AT64(v3, 80);
v5 = a1 + (v4 * 48u);
TEST(v5);
SET8(v5, 0, v26);
SET8(v5, 2, v25);
SET8(v5, 1, v28);
COPY_FEW(v5 + 8u, v19, 40u);
FILL_FEW(v3 + 186u, 0u, 45u);
SET64(v3, 80, 0u);
v7 = AT64(v3, 88);
SET64(v3, 88, 0u);
FILL_FEW(v3 + 276u, 0u, 45u);
FILL_FEW(v3 + 231u, 0u, 45u);
v4 = v4 + 1u;
v13 = v4 == 0 ? 0ull : v7;
v5 = v14;
if (v8 != v24) goto L5;
L4:;
a1 = AT64(v3, 72);
SET64(v3, 15, a1);
SET64(v3, 23, v4);
SET64(v3, 31, v7);
TEST(a0);
SET8(a0, 0, 0u);
SET64(a0, 8, a1);
SET64(a0, 16, v4);
SET64(a0, 24, v7);
goto L2;
L3:;
if (!(AT64(v3, 88) == 0)) {
rud_dealloc(RUD_AS AT64(v3, 72));
RUD_AGAIN
}
TEST(a0);
SET64(a0, 8, 0u);
SET8(a0, 0, 1u);
SET64(a0, 16, 0u);
SET64(a0, 24, 0u);
L2:;
RUD_G0 = v3 + 560u;
return;
}
rud_trap();
}

static void in_mm_memory_request_each_1d19660126d51927(RUD_IT u64 a0, u64 a1, u64 a2) {
u32 v25 = 0, v26 = 0, v27 = 0, v28 = 0, v29 = 0, v30 = 0, i0 = 0;
u64 v3 = 0, v4 = 0, v5 = 0, v6 = 0, v7 = 0, v8 = 0, v9 = 0, v10 = 0, v11 = 0, v12 = 0, v13 = 0, v14 = 0;
u64 v15 = 0, v16 = 0, v17 = 0, v18 = 0, v19 = 0, v20 = 0, v21 = 0, v22 = 0, v23 = 0, v24 = 0;
RUD_HERE
(void)v15;
(void)v16;
v3 = RUD_G0 - 576u;
RUD_G0 = v3;
if ((s64)v3 >= (s64)16u) {
TEST(a2);
v28 = AT8(a2, 1);
v29 = AT8(a2, 0);
TEST(v3);
SET64(v3, 8, 0u);
SET64(v3, 16, 0u);
SET64(v3, 24, 0u);
SET64(v3, 31, 0u);
SET64(v3, 40, AT64(a2, 2));
SET16(v3, 48, AT16(a2, 10));
v30 = AT32(a2, 12);
v17 = AT64(a2, 16);
v18 = AT64(a2, 24);
TEST(a1);
v5 = AT64(a1, 8);
v7 = AT64(a1, 0);
SET64(v3, 79, 0u);
SET64(v3, 72, 0u);
SET64(v3, 64, 0u);
SET64(v3, 56, 0u);
SET64(v3, 88, v3 + 568u);
FILL_FEW(v3 + 112u, 0u, 45u);
FILL_FEW(v3 + 202u, 0u, 45u);
SET64(v3, 104, 0u);
SET64(v3, 96, 0u);
FILL_FEW(v3 + 292u, 0u, 45u);
if (v5 == 0) goto L4;
v19 = v3 + 117u;
v20 = v3 + 207u;
v21 = v3 + 162u;
v22 = v3 + 297u;
v8 = v3 + 252u;
v12 = v3 + 342u;
v13 = v3 + 387u;
v14 = v3 + 432u;
v23 = v3 + 528u;
v15 = v3 + 482u;
v16 = v3 + 96u;
a2 = v3 + 568u;
L5:;
v10 = v4 - v9;
a2 = a2 + (v4 * 48u);
a1 = 0u;
L7:;
SET16(v3, 490, AT16(v3, 48));
SET64(v3, 482, AT64(v3, 40));
v24 = v3 + 520u;
FILL_FEW(v24, 0u, 48u);
SET64(v3, 472, 0u);
TEST(v7);
v11 = AT64(v7, 0);
SET64(v3, 504, v18);
SET64(v3, 496, v17);
SET32(v3, 492, v30);
SET8(v3, 481, v28);
SET8(v3, 480, v29);
SET64(v3, 512, v11);
in_mm_memory_validation_parsed(RUD_AS v24, v3 + 512u, v3 + 472u);
v25 = AT8(v3, 522);
v26 = AT8(v3, 521);
v27 = AT8(v3, 520);
COPY_FEW(v14, v23, 40u);
COPY_FEW(v13, v14, 40u);
COPY_FEW(v12, v13, 40u);
COPY_FEW(v8, v12, 40u);
if ((a1 + v10) == 0) goto L6;
v7 = v7 + 8u;
TEST(a2);
SET8(a2, 0, v27);
SET8(a2, 2, v25);
SET8(a2, 1, v26);
COPY_FEW(a2 + 8u, v8, 40u);
a2 = a2 + 48u;
a1 = a1 + 1u;
if (v5 != a1) goto L7;
v4 = a1 + v4;
goto L4;
L6:;
COPY_FEW(v22, v8, 40u);
COPY_FEW(v3 + 157u, v3 + 292u, 45u);
SET64(v3, 104, v6);
SET64(v3, 96, v9);
COPY_FEW(v20, v21, 40u);
COPY_FEW(v3 + 112u, v3 + 202u, 45u);
v10 = (a1 ^ 0xffffffffffffffffull) + v5;
i0 = in_std_alloc_vec_Vec_grow_by_hint_c7528f268d97bc21(RUD_AS v3 + 88u, v10);
RUD_AGAIN
if (i0 == 0) goto L3;
v7 = v7 + 8u;
v11 = v5 - 1u;
a2 = AT64(v3, 88);
v4 = AT64(v3, 96);
v5 = a2 + (v4 * 48u);
TEST(v5);
SET8(v5, 0, v27);
SET8(v5, 2, v25);
SET8(v5, 1, v26);
COPY_FEW(v5 + 8u, v19, 40u);
FILL_FEW(v3 + 202u, 0u, 45u);
SET64(v3, 96, 0u);
v6 = AT64(v3, 104);
SET64(v3, 104, 0u);
FILL_FEW(v3 + 292u, 0u, 45u);
v4 = v4 + 1u;
v9 = v4 == 0 ? 0ull : v6;
v5 = v10;
if (a1 != v11) goto L5;
L4:;
a1 = AT64(v3, 88);
SET64(v3, 15, a1);
SET64(v3, 23, v4);
SET64(v3, 31, v6);
TEST(a0);
SET8(a0, 0, 0u);
SET64(a0, 8, a1);
SET64(a0, 16, v4);
SET64(a0, 24, v6);
goto L2;
L3:;
if (!(AT64(v3, 104) == 0)) {
rud_dealloc(RUD_AS AT64(v3, 88));
RUD_AGAIN
}
TEST(a0);
SET64(a0, 8, 0u);
SET8(a0, 0, 1u);
SET64(a0, 16, 0u);
SET64(a0, 24, 0u);
L2:;
RUD_G0 = v3 + 576u;
return;
}
rud_trap();
}

static void in_mm_memory_request_change_each(RUD_IT u64 a0, u64 a1, u64 a2) {
u64 v3 = 0;
RUD_HERE
v3 = RUD_G0 - 64u;
RUD_G0 = v3;
if ((s64)v3 >= (s64)16u) {
TEST(v3);
SET64(v3, 8, 0u);
SET64(v3, 0, 0u);
SET64(v3, 32, 0u);
SET64(v3, 40, 0u);
SET64(v3, 48, 0u);
SET64(v3, 56, 0u);
TEST(a2);
SET16(v3, 8, AT16(a2, 0));
SET8(v3, 0, 4u);
SET32(v3, 12, AT32(a2, 4));
SET64(v3, 24, AT64(a2, 16));
SET64(v3, 16, AT64(a2, 8));
in_mm_memory_request_each_1d19660126d51927(RUD_AS v3 + 32u, a1, v3);
RUD_AGAIN
TEST(a0);
SET8(a0, 0, AT8(v3, 32));
SET64(a0, 8, AT64(v3, 40));
SET64(a0, 16, AT64(v3, 48));
SET64(a0, 24, AT64(v3, 56));
RUD_G0 = v3 + 64u;
return;
}
rud_trap();
}

static void in_mm_memory_memory_Memory_asked_about(RUD_IT u64 a0, u64 a1, u64 a2) {
u32 v4 = 0, i0 = 0;
u64 v3 = 0;
RUD_HERE
v3 = RUD_G0 - 32u;
RUD_G0 = v3;
TEST(a2);
TEST(v3);
SET64(v3, 24, AT64(a2, 0));
if ((s64)v3 >= (s64)16u) {
SET8(v3, 8, 0u);
SET64(v3, 0, 0u);
in_mm_memory_validation_id_of(RUD_AS v3, v3 + 24u);
if (AT8(v3, 0)) goto L2;
SET64(v3, 16, AT64(v3, 1));
TEST(a1);
a2 = AT64(a1, 0) - 192u;
a1 = AT64(a1, 8) + 1u;
L4:;
a1 = a1 - 1u;
if (a1 == 0) goto L2;
a2 = a2 + 192u;
i0 = in_mm_base_id_StoreIdPartialEq_eq(RUD_AS a2, v3 + 16u);
if (i0 == 0) goto L4;
v4 = 1u;
goto L1;
}
rud_trap();
L2:;
a2 = 0u;
L1:;
TEST(a0);
SET64(a0, 8, a2);
SET8(a0, 0, v4);
RUD_G0 = v3 + 32u;
}

static void in_std_heap_GlobalAllocator_grow_26_mm_st15_report_entry_Row(RUD_IT u64 a0, u64 a1, u64 a2, u64 a3) {
RUD_NONE
in_byn_mgfn_shared_std_heap_GlobalAllocator_grow_35_mm_st15_instruc(RUD_AS a0, a1, a2, a3, 2u, 2u);
}

static u32 in_std_alloc_vec_Vec_grow_amortized_b59f931699c328fa(RUD_IT u64 a0) {
u32 v6 = 0, v7 = 0;
u64 v1 = 0, v2 = 0, v3 = 0, v4 = 0, v5 = 0, j0 = 0;
RUD_HERE
v1 = RUD_G0 - 32u;
RUD_G0 = v1;
if ((s64)v1 >= (s64)16u) {
TEST(a0);
v3 = AT64(a0, 8);
if ((v3 ^ 0xffffffffffffffffull) == 0) goto L2;
v2 = v3 + 1u;
v2 = v2 > 4u ? v2 : 4ull;
v5 = AT64(a0, 16);
v4 = v5 << 1;
v4 = v2 > v4 ? v2 : v4;
v2 = v5 < 4611686018427387904ull ? v4 : v2;
if (v2 > 2305843009213693951ull) goto L2;
if (!(v5 == 0)) {
in_std_heap_GlobalAllocator_grow_26_mm_st15_report_entry_Row(RUD_AS v1 + 16u, AT64(a0, 0), v3, v2);
RUD_AGAIN
TEST(v1);
v6 = AT8(v1, 16);
j0 = AT64(v1, 24);
goto L3;
}
in_std_heap_GlobalAllocator_allocate(RUD_AS v1, v4 << 2, 2u);
RUD_AGAIN
TEST(v1);
v6 = AT8(v1, 0);
j0 = v6 ? 0ull : AT64(v1, 8);
L3:;
v3 = j0;
if (v6) goto L2;
SET64(a0, 16, v2);
SET64(a0, 0, v3);
v7 = 1u;
L2:;
RUD_G0 = v1 + 32u;
return v7;
}
rud_trap();
return 0;
}

static void in_std_alloc_vec_Vec_push_e8aabc6c4a0bee9e(RUD_IT u64 a0, u64 a1, u64 a2) {
u32 v10 = 0, i0 = 0;
u64 v3 = 0, v4 = 0, v5 = 0, v6 = 0, v7 = 0, v8 = 0, v9 = 0, j0 = 0, j1 = 0;
RUD_HERE
(void)j0;
v3 = RUD_G0 - 32u;
RUD_G0 = v3;
TEST(a2);
TEST(v3);
SET64(v3, 0, AT64(a2, 16));
SET64(v3, 8, AT64(a2, 24));
SET64(v3, 16, AT64(a2, 32));
SET64(v3, 24, AT64(a2, 40));
if ((s64)v3 >= (s64)16u) {
v8 = AT64(a2, 8);
v9 = (u64)AT8(a2, 0);
TEST(a1);
v4 = AT64(a1, 8);
if (v4 == AT64(a1, 16)) {
a2 = RUD_G0 - 32u;
RUD_G0 = a2;
if ((s64)a2 >= (s64)16u) {
v4 = AT64(a1, 8);
if (v4 == 0xffffffffffffffffull) goto L7;
v5 = (v4 > 3u ? v4 : 3ull) + 1u;
v6 = AT64(a1, 16);
v7 = v6 << 1;
v7 = v5 > v7 ? v5 : v7;
v5 = v6 < 4611686018427387904ull ? v7 : v5;
if (v5 > 192153584101141162ull) goto L7;
j0 = a1;
if (!(v6 == 0)) {
v6 = AT64(a1, 0);
TEST(a2);
SET64(a2, 24, 0u);
SET64(a2, 16, 0u);
rud_realloc(RUD_AS a2 + 16u, v6, v4 * 48u, v5 * 48u, 8u);
RUD_AGAIN
if (AT8(a2, 16) == 0) goto L7;
j1 = AT64(a2, 24);
goto L8;
}
in_std_heap_GlobalAllocator_allocate(RUD_AS a2, v7 * 48u, 8u);
RUD_AGAIN
TEST(a2);
if (AT8(a2, 0)) goto L7;
j1 = AT64(a2, 8);
L8:;
SET64(a1, 0, j1);
SET64(a1, 16, v5);
v10 = 1u;
L7:;
RUD_G0 = a2 + 32u;
i0 = v10;
goto L5;
}
rud_trap();
L5:;
if (i0 == 0) goto L3;
v4 = AT64(a1, 8);
}
a2 = AT64(a1, 0) + (v4 * 48u);
TEST(a2);
SET64(a2, 0, v9);
SET64(a2, 8, v8);
SET64(a2, 16, AT64(v3, 0));
SET64(a2, 24, AT64(v3, 8));
SET64(a2, 32, AT64(v3, 16));
SET64(a2, 40, AT64(v3, 24));
SET64(a1, 8, v4 + 1u);
TEST(a0);
SET8(a0, 0, 0u);
FILL_FEW(a0 + 8u, 0u, 48u);
goto L2;
L3:;
TEST(a0);
SET8(a0, 0, 1u);
SET64(a0, 16, v8);
SET64(a0, 8, v9);
SET64(a0, 24, AT64(v3, 0));
SET64(a0, 32, AT64(v3, 8));
SET64(a0, 40, AT64(v3, 16));
SET64(a0, 48, AT64(v3, 24));
L2:;
RUD_G0 = v3 + 32u;
return;
}
rud_trap();
}

static void in_std_alloc_vec_Vec_drop_c31060acdab8795b(RUD_IT u64 a0) {
u64 v1 = 0, v2 = 0, v3 = 0, v4 = 0, v6 = 0, v7 = 0, j0 = 0;
RUD_HERE
v1 = RUD_G0 - 48u;
RUD_G0 = v1;
if ((s64)v1 >= (s64)16u) {
TEST(a0);
v3 = AT64(a0, 0);
v4 = AT64(a0, 8);
j0 = AT64(a0, 16);
if (!(v4 == 0)) {
v2 = v1 + 16u;
a0 = v3;
L3:;
TEST(a0);
v6 = AT64(a0, 8);
v7 = (u64)AT8(a0, 0);
TEST(v2);
SET64(v2, 0, AT64(a0, 16));
SET64(v2, 8, AT64(a0, 24));
SET64(v2, 16, AT64(a0, 32));
SET64(v2, 24, AT64(a0, 40));
TEST(v1);
SET64(v1, 8, v6);
SET64(v1, 0, v7);
a0 = a0 + 48u;
in_mm_memory_mm_st15_report_Report_Destruct_drop(RUD_AS v1);
RUD_AGAIN
v4 = v4 - 1u;
if (v4 != 0u) goto L3;
}
if (!(j0 == 0)) {
rud_dealloc(RUD_AS v3);
RUD_AGAIN
}
RUD_G0 = v1 + 48u;
return;
}
rud_trap();
}

static u64 in_mm_store_any_AnyStorePacketStore_oldest(RUD_IT u64 a0) {
u64 v1 = 0, v2 = 0, v3 = 0, j0 = 0, j1 = 0;
RUD_HERE
v2 = RUD_G0;
if ((s64)v2 >= (s64)16u) {
TEST(a0);
if (AT8(a0, 0) == 0) {
if (AT64(a0, 24) == 0) { j0 = 0u; goto L2; }
v1 = AT64(a0, 32);
j0 = AT64(a0, 8);
a0 = AT64(a0, 16);
j0 = GET64(j0 + ((v1 - (a0 > v1 ? 0ull : a0)) * 40u), 0);
goto L2;
}
a0 = a0 + 8u;
if ((s64)RUD_G0 < (s64)16u) goto L5;
TEST(a0);
v3 = AT64(a0, 32);
if (v3 == 0) {
j0 = 0u;
} else {
v1 = AT64(a0, 24);
j0 = AT64(a0, 0);
if (AT64(a0, 56) != v3) {
j1 = v1 + (AT64(a0, 48) << 2);
} else {
j1 = v1;
}
TEST(j1);
a0 = j0 + ((u64)AT32(j1, 0) * 48u);
TEST(a0);
if ((AT8(a0, 0) & 1u) == 0) goto L5;
j0 = AT64(a0, 8);
}
goto L4;
L5:;
rud_trap();
return 0;
L4:;
L2:;
RUD_G0 = v2;
return j0;
}
rud_trap();
return 0;
}

static u64 in_mm_store_any_AnyStorePacketStore_newest(RUD_IT u64 a0) {
u32 v5 = 0;
u64 v1 = 0, v2 = 0, v3 = 0, v4 = 0, j0 = 0, j1 = 0;
RUD_HERE
v2 = RUD_G0 - 16u;
RUD_G0 = v2;
if ((s64)v2 < (s64)16u) goto L3;
TEST(a0);
if (AT8(a0, 0) == 0) {
v1 = AT64(a0, 24);
if (v1 == 0) goto L2;
a0 = a0 + 8u;
v1 = v1 - 1u;
if ((s64)RUD_G0 >= (s64)16u) {
TEST(a0);
j0 = v2;
if (v1 >= AT64(a0, 16)) {
j1 = 0u;
} else {
v5 = 1u;
v1 = AT64(a0, 24) + v1;
j1 = AT64(a0, 0);
a0 = AT64(a0, 8);
j1 = j1 + ((v1 - (a0 > v1 ? 0ull : a0)) * 40u);
}
TEST(j0);
SET64(j0, 8, j1);
TEST(v2);
SET8(v2, 0, v5);
goto L5;
}
rud_trap();
return 0;
L5:;
if ((AT8(v2, 0) & 1u) == 0) goto L3;
j0 = GET64(AT64(v2, 8), 0);
goto L1;
}
v1 = AT64(a0, 40);
if (v1 == 0) goto L2;
j0 = AT64(a0, 8);
a0 = a0 + 32u;
v1 = v1 - 1u;
if ((s64)RUD_G0 >= (s64)16u) {
TEST(a0);
v3 = AT64(a0, 0);
v4 = AT64(a0, 8) - AT64(a0, 32);
if (v4 > v1) {
j1 = (v3 + (AT64(a0, 24) << 2)) + (v1 << 2);
goto L8;
}
j1 = v3 + ((v1 - v4) << 2);
goto L8;
}
rud_trap();
return 0;
L8:;
TEST(j1);
a0 = j0 + ((u64)AT32(j1, 0) * 48u);
TEST(a0);
if ((AT8(a0, 0) & 1u) == 0) goto L3;
j0 = AT64(a0, 8);
goto L1;
L3:;
rud_trap();
return 0;
L2:;
j0 = 0u;
L1:;
RUD_G0 = v2 + 16u;
return j0;
}

static void in_std_heap_GlobalAllocator_grow_30_mm_st15_report_entry_Summary(RUD_IT u64 a0, u64 a1, u64 a2, u64 a3) {
RUD_NONE
in_byn_mgfn_shared_std_heap_GlobalAllocator_grow_35_mm_st15_instruc(RUD_AS a0, a1, a2, a3, 8u, 5u);
}

static u32 in_std_alloc_vec_Vec_grow_amortized_ca68ededf986fbb3(RUD_IT u64 a0) {
u32 v6 = 0, v7 = 0;
u64 v1 = 0, v2 = 0, v3 = 0, v4 = 0, v5 = 0, j0 = 0;
RUD_HERE
v1 = RUD_G0 - 32u;
RUD_G0 = v1;
if ((s64)v1 >= (s64)16u) {
TEST(a0);
v3 = AT64(a0, 8);
if ((v3 ^ 0xffffffffffffffffull) == 0) goto L2;
v2 = v3 + 1u;
v2 = v2 > 4u ? v2 : 4ull;
v5 = AT64(a0, 16);
v4 = v5 << 1;
v4 = v2 > v4 ? v2 : v4;
v2 = v5 < 4611686018427387904ull ? v4 : v2;
if (v2 > 288230376151711743ull) goto L2;
if (!(v5 == 0)) {
in_std_heap_GlobalAllocator_grow_30_mm_st15_report_entry_Summary(RUD_AS v1 + 16u, AT64(a0, 0), v3, v2);
RUD_AGAIN
TEST(v1);
v6 = AT8(v1, 16);
j0 = AT64(v1, 24);
goto L3;
}
in_std_heap_GlobalAllocator_allocate(RUD_AS v1, v4 << 5, 8u);
RUD_AGAIN
TEST(v1);
v6 = AT8(v1, 0);
j0 = v6 ? 0ull : AT64(v1, 8);
L3:;
v3 = j0;
if (v6) goto L2;
SET64(a0, 16, v2);
SET64(a0, 0, v3);
v7 = 1u;
L2:;
RUD_G0 = v1 + 32u;
return v7;
}
rud_trap();
return 0;
}

static void in_std_heap_GlobalAllocator_grow_29_mm_st15_report_entry_Status(RUD_IT u64 a0, u64 a1, u64 a2, u64 a3) {
RUD_NONE
in_byn_mgfn_shared_std_heap_GlobalAllocator_grow_483ec8513fd57e54(RUD_AS a0, a1, a2, a3, 1u, 10u);
}

static u32 in_std_alloc_vec_Vec_grow_amortized_24b0e7cc841ed643(RUD_IT u64 a0, u64 a1) {
u32 v6 = 0, v7 = 0;
u64 v2 = 0, v3 = 0, v4 = 0, v5 = 0, j0 = 0;
RUD_HERE
v2 = RUD_G0 - 32u;
RUD_G0 = v2;
if ((s64)v2 >= (s64)16u) {
TEST(a0);
v4 = AT64(a0, 8);
if (a1 > (v4 ^ 0xffffffffffffffffull)) goto L2;
a1 = a1 + v4;
v3 = a1 > 4u ? a1 : 4ull;
v5 = AT64(a0, 16);
a1 = v5 << 1;
a1 = a1 < v3 ? v3 : a1;
v3 = v5 < 4611686018427387904ull ? a1 : v3;
if (v3 > 922337203685477580ull) goto L2;
if (!(v5 == 0)) {
in_std_heap_GlobalAllocator_grow_29_mm_st15_report_entry_Status(RUD_AS v2 + 16u, AT64(a0, 0), v4, v3);
RUD_AGAIN
TEST(v2);
v7 = AT8(v2, 16);
j0 = AT64(v2, 24);
goto L3;
}
in_std_heap_GlobalAllocator_allocate(RUD_AS v2, a1 * 10u, 1u);
RUD_AGAIN
TEST(v2);
v7 = AT8(v2, 0);
j0 = v7 ? 0ull : AT64(v2, 8);
L3:;
a1 = j0;
if (v7) goto L2;
SET64(a0, 16, v3);
SET64(a0, 0, a1);
v6 = 1u;
L2:;
RUD_G0 = v2 + 32u;
return v6;
}
rud_trap();
return 0;
}

static u32 in_std_alloc_vec_Vec_grow_amortized_a29bcaab257478eb(RUD_IT u64 a0, u64 a1) {
u32 v6 = 0, v7 = 0;
u64 v2 = 0, v3 = 0, v4 = 0, v5 = 0, j0 = 0;
RUD_HERE
v2 = RUD_G0 - 32u;
RUD_G0 = v2;
if ((s64)v2 >= (s64)16u) {
TEST(a0);
v4 = AT64(a0, 8);
if (a1 > (v4 ^ 0xffffffffffffffffull)) goto L2;
a1 = a1 + v4;
v3 = a1 > 4u ? a1 : 4ull;
v5 = AT64(a0, 16);
a1 = v5 << 1;
a1 = a1 < v3 ? v3 : a1;
v3 = v5 < 4611686018427387904ull ? a1 : v3;
if (v3 > 576460752303423487ull) goto L2;
if (!(v5 == 0)) {
in_std_heap_GlobalAllocator_grow_35_mm_st15_instruction_Configurati(RUD_AS v2 + 16u, AT64(a0, 0), v4, v3);
RUD_AGAIN
TEST(v2);
v7 = AT8(v2, 16);
j0 = AT64(v2, 24);
goto L3;
}
in_std_heap_GlobalAllocator_allocate(RUD_AS v2, a1 << 4, 4u);
RUD_AGAIN
TEST(v2);
v7 = AT8(v2, 0);
j0 = v7 ? 0ull : AT64(v2, 8);
L3:;
a1 = j0;
if (v7) goto L2;
SET64(a0, 16, v3);
SET64(a0, 0, a1);
v6 = 1u;
L2:;
RUD_G0 = v2 + 32u;
return v6;
}
rud_trap();
return 0;
}

static void in_mm_memory_reports_one(RUD_IT u64 a0, u64 a1) {
u32 v6 = 0;
u64 v2 = 0, v3 = 0, v4 = 0, v5 = 0;
RUD_HERE
v2 = RUD_G0 - 192u;
RUD_G0 = v2;
if ((s64)v2 >= (s64)16u) {
TEST(a1);
v4 = AT64(a1, 8);
v3 = (u64)AT8(a1, 0);
v5 = v2 + 56u;
FILL_FEW(v5, 0u, 56u);
TEST(v2);
SET64(v2, 120, 0u);
SET64(v2, 128, 0u);
SET64(v2, 16, v4);
SET64(v2, 8, v3);
SET64(v2, 24, AT64(a1, 16));
SET64(v2, 32, AT64(a1, 24));
SET64(v2, 40, AT64(a1, 32));
SET64(v2, 48, AT64(a1, 40));
SET64(v2, 112, v2 + 184u);
in_std_alloc_vec_Vec_push_e8aabc6c4a0bee9e(RUD_AS v5, v2 + 112u, v2 + 8u);
RUD_AGAIN
if (AT8(v2, 56) == 0) {
TEST(a0);
SET64(a0, 24, AT64(v2, 128));
SET64(a0, 16, AT64(v2, 120));
SET64(a0, 8, AT64(v2, 112));
goto L1;
}
v3 = (u64)AT8(v2, 64);
a1 = AT64(v2, 72);
SET64(v2, 176, AT64(v2, 104));
SET64(v2, 168, AT64(v2, 96));
SET64(v2, 160, AT64(v2, 88));
SET64(v2, 152, AT64(v2, 80));
SET64(v2, 144, a1);
SET64(v2, 136, v3);
in_mm_memory_mm_st15_report_Report_Destruct_drop(RUD_AS v2 + 136u);
RUD_AGAIN
in_std_alloc_vec_Vec_drop_c31060acdab8795b(RUD_AS v2 + 112u);
RUD_AGAIN
TEST(a0);
SET64(a0, 24, 0u);
SET64(a0, 16, 0u);
SET64(a0, 8, 0u);
v6 = 1u;
goto L1;
}
rud_trap();
L1:;
SET8(a0, 0, v6);
RUD_G0 = v2 + 192u;
}

static void in_mm_desk_holding_place_of(RUD_IT u64 a0, u64 a1, u64 a2, u64 a3) {
u32 v4 = 0, i0 = 0;
u64 v5 = 0, v6 = 0;
RUD_HERE
v6 = RUD_G0;
if ((s64)v6 >= (s64)16u) {
if (!(a2 == 0)) {
v5 = a1 - 192u;
a1 = 0u;
L4:;
v5 = v5 + 192u;
i0 = in_mm_base_id_StoreIdPartialEq_eq(RUD_AS v5, a3);
if (i0) {
v4 = 1u;
goto L2;
}
a1 = a1 + 1u;
if (a1 != a2) goto L4;
}
a1 = 0u;
L2:;
TEST(a0);
SET64(a0, 8, a1);
SET8(a0, 0, v4);
RUD_G0 = v6;
return;
}
rud_trap();
}

static void in_circular_buffer_heap_HeapCircularBuffer_pop_front_b37a56fa4dba49(RUD_IT u64 a0, u64 a1) {
u64 v2 = 0, v3 = 0, v4 = 0, j0 = 0, j1 = 0;
RUD_HERE
if ((s64)RUD_G0 >= (s64)16u) {
j0 = a0;
TEST(a1);
v2 = AT64(a1, 16);
if (v2 == 0) {
FILL_FEW(a0 + 8u, 0u, 40u);
j1 = 0u;
goto L2;
}
SET64(a1, 16, v2 - 1u);
v2 = a1 + 24u;
j1 = v2;
v2 = AT64(a1, 24);
v3 = v2 + 1u;
v4 = AT64(a1, 8);
SET64(a1, 24, v3 - (v3 < v4 ? 0ull : v4));
COPY_FEW(a0 + 8u, AT64(a1, 0) + (v2 * 40u), 40u);
j1 = 1u;
L2:;
TEST(j0);
SET64(j0, 0, j1);
return;
}
rud_trap();
}

static void in_std_alloc_vec_deque_VecDeque_pop_front_384c51600a7917bd(RUD_IT u64 a0, u64 a1) {
u32 v4 = 0, i1 = 0;
u64 v2 = 0, v3 = 0, j0 = 0, j1 = 0;
RUD_HERE
if ((s64)RUD_G0 >= (s64)16u) {
j0 = a0;
TEST(a1);
v3 = AT64(a1, 8);
if (v3 == 0) {
i1 = 0u;
goto L2;
}
v2 = a1 + 32u;
if (v3 != AT64(a1, 32)) {
j1 = AT64(a1, 24);
goto L4;
}
SET64(a1, 32, 0u);
j1 = 0u;
L4:;
v2 = j1;
SET64(a1, 8, v3 - 1u);
SET64(a1, 24, v2 + 1u);
v4 = 1u;
i1 = GET32(AT64(a1, 0) + (v2 << 2), 0);
L2:;
TEST(j0);
SET32(j0, 4, i1);
TEST(a0);
SET8(a0, 0, v4);
return;
}
rud_trap();
}

static void in_core_slots_Slots_move_over_28_mm_service_waiting_Waiting(RUD_IT u64 a0, u64 a1, u64 a2, u64 a3) {
u64 v4 = 0, v5 = 0, v6 = 0, v7 = 0, v8 = 0;
RUD_HERE
if ((s64)RUD_G0 >= (s64)16u) {
if (((a1 > a2 ? a2 : a1) + a3) <= (a1 < a2 ? a2 : a1)) {
TEST(a0);
v4 = AT64(a0, 0);
v5 = a2 * 56u;
a0 = v4 + v5;
v6 = a1 * 56u;
a1 = v4 + v6;
a2 = a3 * 56u;
if (a2 > (v5 - v6)) {
if (a3 == 0) goto L2;
L5:;
COPY_FEW(a0, a1, 56u);
a0 = a0 + 56u;
a1 = a1 + 56u;
a3 = a3 - 1u;
if (!(a3 == 0)) goto L5;
goto L2;
}
if (a2 == 0) goto L2;
COPY(a0, a1, a2);
return;
}
if (a1 > a2) {
v5 = a2 + a3;
v6 = a1 - a2;
if (a3 >= 37u) {
v4 = a2 * 56u;
a1 = a1 * 56u;
L8:;
TEST(a0);
a3 = AT64(a0, 0);
if ((a2 + v6) <= a2) {
v7 = a3 + v4;
v8 = a1 + a3;
a3 = 1960u;
L11:;
COPY_FEW(a3 + v7, a3 + v8, 56u);
a3 = a3 - 56u;
if (a3 != 0xffffffffffffffc8ull) goto L11;
goto L9;
}
v7 = a3 + v4;
v8 = a1 + a3;
a3 = 0u;
L12:;
COPY_FEW(a3 + v7, a3 + v8, 56u);
a3 = a3 + 56u;
if (a3 != 2016u) goto L12;
L9:;
v4 = v4 + 2016u;
a1 = a1 + 2016u;
a2 = a2 + 36u;
a3 = v5 - a2;
if (a3 > 36u) goto L8;
}
v4 = a2 * 56u;
TEST(a0);
a1 = AT64(a0, 0);
a0 = a2 + v6;
v6 = a0 * 56u;
if (a0 > a2) {
if (a2 == v5) goto L2;
a0 = a1 + v4;
a1 = a1 + v6;
L14:;
COPY_FEW(a0, a1, 56u);
a0 = a0 + 56u;
a1 = a1 + 56u;
a3 = a3 - 1u;
if (!(a3 == 0)) goto L14;
goto L2;
}
if (a2 == v5) goto L2;
a2 = a3 * 56u;
a0 = ((v4 + a2) + a1) - 56u;
a1 = ((a2 + v6) + a1) - 56u;
L15:;
COPY_FEW(a0, a1, 56u);
a0 = a0 - 56u;
a1 = a1 - 56u;
a3 = a3 - 1u;
if (!(a3 == 0)) goto L15;
goto L2;
}
if ((u32)(a3 == 0) | (u32)(a1 >= a2)) goto L2;
TEST(a0);
v4 = AT64(a0, 0);
v5 = a3 * 56u;
a0 = (v4 + (v5 + (a2 * 56u))) - 56u;
a1 = ((v5 + (a1 * 56u)) + v4) - 56u;
L16:;
COPY_FEW(a0, a1, 56u);
a0 = a0 - 56u;
a1 = a1 - 56u;
a3 = a3 - 1u;
if (a3 != 0u) goto L16;
L2:;
return;
}
rud_trap();
}

static void in_std_alloc_vec_deque_VecDeque_close_gap_3582c41668958e92(RUD_IT u64 a0) {
u64 v1 = 0, v2 = 0, v3 = 0, v4 = 0, v5 = 0, v6 = 0, v7 = 0, v8 = 0, v9 = 0;
RUD_HERE
(void)v8;
if ((s64)RUD_G0 >= (s64)16u) {
v1 = a0 + 8u;
TEST(v1);
v6 = AT64(v1, 0);
SET64(v1, 0, 0u);
v1 = a0 + 16u;
TEST(v1);
v9 = AT64(v1, 0);
SET64(v1, 0, 0u);
v8 = a0 + 24u;
v2 = AT64(v1, 8);
SET64(v1, 8, 0u);
v1 = a0 + 32u;
TEST(v1);
v4 = AT64(v1, 0);
SET64(v1, 0, 0u);
v1 = v6 - v4;
TEST(a0);
v5 = AT64(a0, 0);
if (v2 > v4) {
v7 = v2 - v4;
if (v1 >= 37u) {
v3 = v5 + (v4 * 56u);
v2 = v5 + (v2 * 56u);
L5:;
if ((v4 + v7) <= v4) {
v1 = 1960u;
L8:;
COPY_FEW(v1 + v3, v1 + v2, 56u);
v1 = v1 - 56u;
if (v1 != 0xffffffffffffffc8ull) goto L8;
goto L6;
}
v1 = 0u;
L9:;
COPY_FEW(v1 + v3, v1 + v2, 56u);
v1 = v1 + 56u;
if (v1 != 2016u) goto L9;
L6:;
v3 = v3 + 2016u;
v2 = v2 + 2016u;
v4 = v4 + 36u;
v1 = v6 - v4;
if (v1 > 36u) goto L5;
}
v3 = v4 * 56u;
v7 = v4 + v7;
v2 = v7 * 56u;
if (v4 < v7) {
if (v4 == v6) goto L2;
v3 = v3 + v5;
v2 = v2 + v5;
L11:;
COPY_FEW(v3, v2, 56u);
v3 = v3 + 56u;
v2 = v2 + 56u;
v1 = v1 - 1u;
if (!(v1 == 0)) goto L11;
goto L2;
}
if (v4 == v6) goto L2;
v4 = v1 * 56u;
v3 = ((v3 + v4) + v5) - 56u;
v2 = ((v2 + v4) + v5) - 56u;
L12:;
COPY_FEW(v3, v2, 56u);
v3 = v3 - 56u;
v2 = v2 - 56u;
v1 = v1 - 1u;
if (!(v1 == 0)) goto L12;
goto L2;
}
if ((u32)(v4 == v6) | (u32)(v2 >= v4)) goto L2;
v3 = ((v6 * 56u) + v5) - 56u;
v2 = ((((v2 + v6) * 56u) - (v4 * 56u)) + v5) - 56u;
L13:;
COPY_FEW(v3, v2, 56u);
v3 = v3 - 56u;
v2 = v2 - 56u;
v1 = v1 - 1u;
if (v1 != 0u) goto L13;
L2:;
SET64(a0, 0, v5);
SET64(a0, 24, 0u);
SET64(a0, 32, 0u);
SET64(a0, 16, v9);
SET64(a0, 8, v6);
return;
}
rud_trap();
}

static void in_core_slice_edits_reverse_between_28_mm_service_waiting_Waiting(RUD_IT u64 a0, u64 a1, u64 a2) {
u64 v3 = 0, v4 = 0, v5 = 0, v6 = 0;
RUD_HERE
v5 = RUD_G0 - 64u;
RUD_G0 = v5;
if ((s64)v5 >= (s64)16u) {
v4 = a2 - a1;
if (v4 > 15u) goto L2;
if (v4 < 2u) goto L1;
v6 = a2 - 1u;
v3 = a0 + (a1 * 56u);
a2 = ((a2 * 56u) + a0) - 56u;
L4:;
if (a1 < v6) {
a0 = v5 + 8u;
COPY_FEW(a0, v3, 56u);
COPY_FEW(v3, a2, 56u);
COPY_FEW(a2, a0, 56u);
goto L5;
}
if (a1 <= v6) goto L5;
a0 = v5 + 8u;
COPY_FEW(a0, a2, 56u);
COPY_FEW(a2, v3, 56u);
COPY_FEW(v3, a0, 56u);
L5:;
v6 = v6 - 1u;
a2 = a2 - 56u;
v3 = v3 + 56u;
a1 = a1 + 1u;
v4 = v4 - 2u;
if (v4 > 1u) goto L4;
goto L1;
}
rud_trap();
L2:;
v3 = a0;
a0 = v4 >> 1;
a2 = v3 + ((a2 - a0) * 56u);
v4 = RUD_G0 - 64u;
if ((s64)v4 >= (s64)16u) {
a1 = v3 + (a1 * 56u);
a2 = ((a0 * 56u) + a2) - 56u;
L9:;
v3 = v4 + 8u;
COPY_FEW(v3, a1, 56u);
COPY_FEW(a1, a2, 56u);
COPY_FEW(a2, v3, 56u);
a2 = a2 - 56u;
a1 = a1 + 56u;
a0 = a0 - 1u;
if (a0 != 0u) goto L9;
goto L7;
}
rud_trap();
L7:;
L1:;
RUD_G0 = v5 + 64u;
}

static void in_mm_service_service_Service_apply_in_memory(RUD_IT u64 a0, u64 a1, u64 a2, u64 a3, u64 a4, u64 a5) {
u32 v42 = 0, v43 = 0, v44 = 0, v45 = 0, i0 = 0, i1 = 0;
u64 v6 = 0, v7 = 0, v8 = 0, v9 = 0, v10 = 0, v11 = 0, v12 = 0, v13 = 0, v14 = 0, v15 = 0, v16 = 0, v17 = 0;
u64 v18 = 0, v19 = 0, v20 = 0, v21 = 0, v22 = 0, v23 = 0, v24 = 0, v25 = 0, v26 = 0, v27 = 0, v28 = 0, v29 = 0;
u64 v30 = 0, v31 = 0, v32 = 0, v33 = 0, v34 = 0, v35 = 0, v36 = 0, v37 = 0, v38 = 0, v39 = 0, v40 = 0, v41 = 0;
u64 j0 = 0, j1 = 0;
RUD_HERE
(void)v34;
(void)v35;
(void)v36;
(void)v37;
v6 = RUD_G0 - 1712u;
RUD_G0 = v6;
if ((s64)v6 < (s64)16u) goto L19;
FILL_FEW(v6 + 216u, 0u, 64u);
TEST_FAR(v6, 688);
SET8(v6, 208, 0u);
SET64(v6, 200, 0u);
SET64(v6, 184, 0u);
SET64(v6, 191, 0u);
SET64(v6, 160, 0u);
SET64(v6, 168, 0u);
SET64(v6, 176, 0u);
SET64(v6, 136, 0u);
SET64(v6, 144, 0u);
SET64(v6, 152, 0u);
SET64(v6, 320, 0u);
SET16(v6, 328, 0u);
SET64(v6, 304, 0u);
SET64(v6, 311, 0u);
SET64(v6, 280, 0u);
SET64(v6, 288, 0u);
SET64(v6, 296, 0u);
SET64(v6, 376, 0u);
SET16(v6, 384, 0u);
SET64(v6, 360, 0u);
SET64(v6, 367, 0u);
SET64(v6, 336, 0u);
SET64(v6, 344, 0u);
SET64(v6, 352, 0u);
v7 = v6 + 1288u;
FILL_FEW(v7, 0u, 40u);
in_mm_ask_line_packet_alone(RUD_AS v7, a3, a4);
RUD_AGAIN
if (AT8(v6, 1288) == 0) {
a4 = AT64(v6, 1320);
v45 = AT8(v6, 1303);
v44 = AT8(v6, 1302);
i0 = AT8(v6, 1304);
i1 = AT8(v6, 1301);
SET32(v6, 408, AT32(v6, 1296));
SET8(v6, 412, AT8(v6, 1300));
SET64(v6, 392, AT64(v6, 1305));
SET64(v6, 399, AT64(v6, 1312));
SET64(v6, 496, 0u);
SET64(v6, 488, 0u);
SET64(v6, 480, 0u);
SET64(v6, 520, 0u);
SET64(v6, 512, 0u);
SET64(v6, 504, 0u);
SET64(v6, 544, 0u);
SET64(v6, 536, 0u);
SET64(v6, 528, 0u);
v42 = 1u;
if (i0 | (u32)(i1 != 15u)) goto L29;
in_mm_st15_request_kind_RequestKind_of_code(RUD_AS v6 + 128u, v44);
v42 = 2u;
if ((AT8(v6, 128) & 1u) == 0) goto L29;
v42 = AT8(v6, 129);
TEST(a4);
v10 = AT64(a4, 16);
v8 = AT64(a4, 8);
a3 = 0u;
SET64(v6, 584, 0u);
SET64(v6, 592, 0u);
SET64(v6, 600, 0u);
SET64(v6, 1096, 0u);
SET64(v6, 1104, 0u);
SET64(v6, 1112, 0u);
SET64(v6, 1120, 0u);
SET64(v6, 1616, 0u);
SET64(v6, 1608, 0u);
SET64(v6, 1600, 0u);
SET64(v6, 1592, 0u);
SET64(v6, 1512, 0u);
SET64(v6, 1504, 0u);
SET64(v6, 1496, 0u);
SET64(v6, 1488, 0u);
SET64(v6, 1072, 0u);
SET64(v6, 1064, 0u);
SET64(v6, 1056, 0u);
SET64(v6, 1048, 0u);
SET64(v6, 1024, 0u);
SET64(v6, 1016, 0u);
SET64(v6, 1008, 0u);
SET64(v6, 1000, 0u);
SET64(v6, 806, 0u);
SET64(v6, 800, 0u);
SET64(v6, 792, 0u);
SET64(v6, 784, 0u);
SET64(v6, 774, 0u);
SET64(v6, 768, 0u);
SET64(v6, 760, 0u);
SET64(v6, 752, 0u);
SET64(v6, 936, 0u);
SET64(v6, 928, 0u);
SET64(v6, 920, 0u);
SET64(v6, 912, 0u);
SET64(v6, 888, 0u);
SET64(v6, 880, 0u);
SET64(v6, 872, 0u);
SET64(v6, 864, 0u);
SET64(v6, 840, 0u);
SET64(v6, 832, 0u);
SET64(v6, 824, 0u);
SET64(v6, 816, 0u);
SET64(v6, 984, 0u);
SET64(v6, 976, 0u);
SET64(v6, 968, 0u);
SET64(v6, 960, 0u);
SET64(v6, 470, 0u);
SET64(v6, 464, 0u);
SET64(v6, 456, 0u);
SET64(v6, 448, 0u);
SET64(v6, 744, 0u);
SET64(v6, 736, 0u);
SET64(v6, 728, 0u);
SET64(v6, 720, 0u);
SET64(v6, 664, 0u);
SET64(v6, 656, 0u);
SET64(v6, 648, 0u);
SET64(v6, 640, 0u);
SET64(v6, 438, 0u);
SET64(v6, 432, 0u);
SET64(v6, 424, 0u);
SET64(v6, 416, 0u);
switch ((u32)((u64)v42 & 255u) - 1u) {
case 0u: goto L49;
case 1u: goto L48;
case 2u: goto L47;
case 3u: goto L46;
case 4u: goto L45;
case 5u: goto L44;
case 6u: goto L43;
case 7u: goto L42;
case 8u: goto L35;
case 9u: goto L41;
case 10u: goto L40;
case 11u: goto L34;
case 12u: goto L39;
case 13u: goto L38;
case 14u: goto L37;
case 15u: goto L36;
default: goto L50;
}
L50:;
in_mm_st15_counted_counted_entries_65c131a536ad0a17(RUD_AS v6 + 1096u, v8, v10);
RUD_AGAIN
SET64(v6, 608, 0u);
SET64(v6, 616, 0u);
SET64(v6, 624, 0u);
v43 = AT8(v6, 1096);
if (v43) {
i0 = AT8(v6, 1097);
goto L51;
}
SET64(v6, 624, AT64(v6, 1120));
SET64(v6, 616, AT64(v6, 1112));
SET64(v6, 608, AT64(v6, 1104));
i0 = 0u;
L51:;
v42 = i0;
SET64(v6, 600, AT64(v6, 624));
SET64(v6, 592, AT64(v6, 616));
SET64(v6, 584, AT64(v6, 608));
goto L30;
L49:;
in_mm_st15_counted_counted_entries_65c131a536ad0a17(RUD_AS v6 + 1592u, v8, v10);
RUD_AGAIN
SET64(v6, 608, 0u);
SET64(v6, 616, 0u);
SET64(v6, 624, 0u);
v43 = AT8(v6, 1592);
if (v43) {
i0 = AT8(v6, 1593);
goto L53;
}
SET64(v6, 624, AT64(v6, 1616));
SET64(v6, 616, AT64(v6, 1608));
SET64(v6, 608, AT64(v6, 1600));
a3 = 1u;
i0 = 0u;
L53:;
v42 = i0;
SET64(v6, 600, AT64(v6, 624));
SET64(v6, 592, AT64(v6, 616));
SET64(v6, 584, AT64(v6, 608));
goto L30;
L48:;
in_mm_st15_counted_counted_entries_00f67b8a91c49b95(RUD_AS v6 + 1488u, v8, v10);
RUD_AGAIN
SET64(v6, 608, 0u);
SET64(v6, 616, 0u);
SET64(v6, 624, 0u);
v43 = AT8(v6, 1488);
if (v43) {
i0 = AT8(v6, 1489);
goto L55;
}
SET64(v6, 624, AT64(v6, 1512));
SET64(v6, 616, AT64(v6, 1504));
SET64(v6, 608, AT64(v6, 1496));
a3 = 2u;
i0 = 0u;
L55:;
v42 = i0;
SET64(v6, 600, AT64(v6, 624));
SET64(v6, 592, AT64(v6, 616));
SET64(v6, 584, AT64(v6, 608));
goto L30;
L47:;
in_mm_st15_counted_counted_entries_00f67b8a91c49b95(RUD_AS v6 + 1048u, v8, v10);
RUD_AGAIN
SET64(v6, 608, 0u);
SET64(v6, 616, 0u);
SET64(v6, 624, 0u);
v43 = AT8(v6, 1048);
if (v43) {
i0 = AT8(v6, 1049);
goto L57;
}
SET64(v6, 624, AT64(v6, 1072));
SET64(v6, 616, AT64(v6, 1064));
SET64(v6, 608, AT64(v6, 1056));
a3 = 3u;
i0 = 0u;
L57:;
v42 = i0;
SET64(v6, 600, AT64(v6, 624));
SET64(v6, 592, AT64(v6, 616));
SET64(v6, 584, AT64(v6, 608));
goto L30;
L46:;
in_mm_st15_counted_counted_entries_65c131a536ad0a17(RUD_AS v6 + 1000u, v8, v10);
RUD_AGAIN
SET64(v6, 608, 0u);
SET64(v6, 616, 0u);
SET64(v6, 624, 0u);
v43 = AT8(v6, 1000);
if (v43) {
i0 = AT8(v6, 1001);
goto L59;
}
SET64(v6, 624, AT64(v6, 1024));
SET64(v6, 616, AT64(v6, 1016));
SET64(v6, 608, AT64(v6, 1008));
a3 = 4u;
i0 = 0u;
L59:;
v42 = i0;
SET64(v6, 600, AT64(v6, 624));
SET64(v6, 592, AT64(v6, 616));
SET64(v6, 584, AT64(v6, 608));
goto L30;
L45:;
SET64(v6, 575, 0u);
SET64(v6, 568, 0u);
SET64(v6, 560, 0u);
SET64(v6, 552, 0u);
v42 = 3u;
if (v10 == 0) goto L62;
TEST(v8);
v11 = (u64)AT8(v8, 0);
if (v11 == 0) goto L62;
v7 = v10 - 1u;
if (v7 != (v11 * 24u)) goto L62;
SET64(v6, 704, 0u);
SET64(v6, 712, 0u);
SET64(v6, 696, v6 + 1704u);
i0 = in_std_alloc_vec_Vec_move_to_b6ba752709f1c5bb(RUD_AS v6 + 696u, v11);
RUD_AGAIN
if (i0 == 0) {
if (AT64(v6, 712) == 0) goto L63;
rud_dealloc(RUD_AS AT64(v6, 696));
RUD_AGAIN
goto L63;
}
v15 = v8 + 1u;
v10 = AT64(v6, 712);
SET64(v6, 631, v10);
v8 = AT64(v6, 704);
SET64(v6, 623, v8);
v9 = AT64(v6, 696);
SET64(v6, 615, v9);
SET64(v6, 672, v9);
SET64(v6, 680, v8);
SET64(v6, 688, v10);
L66:;
if (v7 < 8u) goto L19;
v10 = v7 & 0xfffffffffffffff8ull;
if ((u32)(v10 == 16u) | (u32)(v10 == 8u)) goto L19;
TEST(v15);
v10 = AT64(v15, 16);
v9 = AT64(v15, 8);
v14 = AT64(v15, 0);
v8 = AT64(v6, 680);
if (v8 == AT64(v6, 688)) {
i0 = in_std_alloc_vec_Vec_grow_amortized_b6ba752709f1c5bb(RUD_AS v6 + 672u);
RUD_AGAIN
if (i0 == 0) goto L65;
v8 = AT64(v6, 680);
}
v13 = AT64(v6, 672) + (v8 * 24u);
j1 = (((v10 << 56) | ((v10 & 65280u) << 40)) | (((v10 & 16711680u) << 24) | ((v10 & 4278190080u) << 8))) | ((((v10 >> 8) & 4278190080u) | ((v10 >> 24) & 16711680u)) | (((v10 >> 40) & 65280u) | (v10 >> 56)));
TEST(v13);
SET64(v13, 16, j1);
j1 = (((v9 << 56) | ((v9 & 65280u) << 40)) | (((v9 & 16711680u) << 24) | ((v9 & 4278190080u) << 8))) | ((((v9 >> 8) & 4278190080u) | ((v9 >> 24) & 16711680u)) | (((v9 >> 40) & 65280u) | (v9 >> 56)));
SET64(v13, 8, j1);
SET64(v13, 0, v14);
SET64(v6, 680, v8 + 1u);
v15 = v15 + 24u;
v7 = v7 - 24u;
v11 = v11 - 1u;
if (!(v11 == 0)) goto L66;
a3 = AT64(v6, 672);
SET64(v6, 790, a3);
v7 = AT64(v6, 680);
SET64(v6, 798, v7);
v10 = AT64(v6, 688);
SET64(v6, 806, v10);
SET64(v6, 624, v10);
SET64(v6, 616, v7);
SET64(v6, 608, a3);
a3 = 5u;
v42 = 0u;
i0 = 0u;
goto L61;
L65:;
if (AT64(v6, 688) == 0) goto L63;
rud_dealloc(RUD_AS AT64(v6, 672));
RUD_AGAIN
L63:;
v42 = 0u;
L62:;
SET64(v6, 624, 0u);
SET64(v6, 616, 0u);
SET64(v6, 608, 0u);
i0 = 1u;
L61:;
v43 = i0;
SET64(v6, 600, AT64(v6, 624));
SET64(v6, 592, AT64(v6, 616));
SET64(v6, 584, AT64(v6, 608));
goto L30;
L44:;
v42 = 3u;
if (v10 == 0) goto L69;
TEST(v8);
v7 = (u64)AT8(v8, 0);
if (v7 == 0) goto L69;
v15 = v10 - 1u;
if (v15 != (v7 << 4)) goto L69;
SET64(v6, 704, 0u);
SET64(v6, 712, 0u);
SET64(v6, 696, v6 + 1704u);
i0 = in_std_alloc_vec_Vec_move_to_8f93ed18667da11d(RUD_AS v6 + 696u, v7);
RUD_AGAIN
if (i0 == 0) {
if (AT64(v6, 712) == 0) goto L70;
rud_dealloc(RUD_AS AT64(v6, 696));
RUD_AGAIN
goto L70;
}
v9 = v8 + 1u;
a3 = AT64(v6, 712);
SET64(v6, 631, a3);
v10 = AT64(v6, 704);
SET64(v6, 623, v10);
v8 = AT64(v6, 696);
SET64(v6, 615, v8);
SET64(v6, 672, v8);
SET64(v6, 680, v10);
SET64(v6, 688, a3);
L73:;
if (v15 <= 15u) goto L19;
TEST(v9);
a3 = AT64(v9, 8);
v8 = AT64(v9, 0);
v10 = AT64(v6, 680);
if (v10 == AT64(v6, 688)) {
i0 = in_std_alloc_vec_Vec_grow_amortized_8f93ed18667da11d(RUD_AS v6 + 672u);
RUD_AGAIN
if (i0 == 0) goto L72;
v10 = AT64(v6, 680);
}
v11 = AT64(v6, 672) + (v10 << 4);
j1 = (((a3 << 56) | ((a3 & 65280u) << 40)) | (((a3 & 16711680u) << 24) | ((a3 & 4278190080u) << 8))) | ((((a3 >> 8) & 4278190080u) | ((a3 >> 24) & 16711680u)) | (((a3 >> 40) & 65280u) | (a3 >> 56)));
TEST(v11);
SET64(v11, 8, j1);
SET64(v11, 0, v8);
SET64(v6, 680, v10 + 1u);
v9 = v9 + 16u;
v15 = v15 - 16u;
v7 = v7 - 1u;
if (!(v7 == 0)) goto L73;
a3 = AT64(v6, 672);
SET64(v6, 758, a3);
v7 = AT64(v6, 680);
SET64(v6, 766, v7);
v10 = AT64(v6, 688);
SET64(v6, 774, v10);
SET64(v6, 624, v10);
SET64(v6, 616, v7);
SET64(v6, 608, a3);
v43 = 0u;
v42 = 0u;
j0 = 6u;
goto L68;
L72:;
if (AT64(v6, 688) == 0) goto L70;
rud_dealloc(RUD_AS AT64(v6, 672));
RUD_AGAIN
L70:;
v42 = 0u;
L69:;
SET64(v6, 624, 0u);
SET64(v6, 616, 0u);
SET64(v6, 608, 0u);
v43 = 1u;
j0 = 0u;
L68:;
a3 = j0;
SET64(v6, 600, AT64(v6, 624));
SET64(v6, 592, AT64(v6, 616));
SET64(v6, 584, AT64(v6, 608));
goto L30;
L43:;
in_mm_st15_counted_counted_entries_65c131a536ad0a17(RUD_AS v6 + 912u, v8, v10);
RUD_AGAIN
SET64(v6, 608, 0u);
SET64(v6, 616, 0u);
SET64(v6, 624, 0u);
v43 = AT8(v6, 912);
if (v43) {
i0 = AT8(v6, 913);
goto L75;
}
SET64(v6, 624, AT64(v6, 936));
SET64(v6, 616, AT64(v6, 928));
SET64(v6, 608, AT64(v6, 920));
a3 = 7u;
i0 = 0u;
L75:;
v42 = i0;
SET64(v6, 600, AT64(v6, 624));
SET64(v6, 592, AT64(v6, 616));
SET64(v6, 584, AT64(v6, 608));
goto L30;
L42:;
in_mm_st15_counted_counted_entries_65c131a536ad0a17(RUD_AS v6 + 864u, v8, v10);
RUD_AGAIN
SET64(v6, 608, 0u);
SET64(v6, 616, 0u);
SET64(v6, 624, 0u);
v43 = AT8(v6, 864);
if (v43) {
i0 = AT8(v6, 865);
goto L77;
}
SET64(v6, 624, AT64(v6, 888));
SET64(v6, 616, AT64(v6, 880));
SET64(v6, 608, AT64(v6, 872));
a3 = 8u;
i0 = 0u;
L77:;
v42 = i0;
SET64(v6, 600, AT64(v6, 624));
SET64(v6, 592, AT64(v6, 616));
SET64(v6, 584, AT64(v6, 608));
goto L30;
L41:;
in_mm_st15_counted_counted_entries_93728722e2cdf027(RUD_AS v6 + 816u, 1u, v8, v10);
RUD_AGAIN
SET64(v6, 608, 0u);
SET64(v6, 616, 0u);
SET64(v6, 624, 0u);
v43 = AT8(v6, 816);
if (v43) {
i0 = AT8(v6, 817);
goto L79;
}
SET64(v6, 624, AT64(v6, 840));
SET64(v6, 616, AT64(v6, 832));
SET64(v6, 608, AT64(v6, 824));
a3 = 10u;
i0 = 0u;
L79:;
v42 = i0;
SET64(v6, 600, AT64(v6, 624));
SET64(v6, 592, AT64(v6, 616));
SET64(v6, 584, AT64(v6, 608));
goto L30;
L40:;
in_mm_st15_counted_counted_entries_65c131a536ad0a17(RUD_AS v6 + 960u, v8, v10);
RUD_AGAIN
SET64(v6, 608, 0u);
SET64(v6, 616, 0u);
SET64(v6, 624, 0u);
v43 = AT8(v6, 960);
if (v43) {
i0 = AT8(v6, 961);
goto L81;
}
SET64(v6, 624, AT64(v6, 984));
SET64(v6, 616, AT64(v6, 976));
SET64(v6, 608, AT64(v6, 968));
a3 = 11u;
i0 = 0u;
L81:;
v42 = i0;
SET64(v6, 600, AT64(v6, 624));
SET64(v6, 592, AT64(v6, 616));
SET64(v6, 584, AT64(v6, 608));
goto L30;
L39:;
v42 = 3u;
if (v10 == 0) goto L84;
TEST(v8);
v15 = (u64)AT8(v8, 0);
if (v15 == 0) goto L84;
v9 = v10 - 1u;
if (v9 != (v15 * 12u)) goto L84;
SET64(v6, 704, 0u);
SET64(v6, 712, 0u);
SET64(v6, 696, v6 + 1704u);
i0 = in_std_alloc_vec_Vec_move_to_2e6a255000427900(RUD_AS v6 + 696u, v15);
RUD_AGAIN
if (i0 == 0) {
if (AT64(v6, 712) == 0) goto L85;
rud_dealloc(RUD_AS AT64(v6, 696));
RUD_AGAIN
goto L85;
}
a3 = v8 + 1u;
v7 = AT64(v6, 712);
SET64(v6, 631, v7);
v10 = AT64(v6, 704);
SET64(v6, 623, v10);
v8 = AT64(v6, 696);
SET64(v6, 615, v8);
SET64(v6, 672, v8);
SET64(v6, 680, v10);
SET64(v6, 688, v7);
L88:;
if (v9 <= 11u) goto L19;
TEST(a3);
v42 = AT32(a3, 8);
v7 = AT64(a3, 0);
v10 = AT64(v6, 680);
if (v10 == AT64(v6, 688)) {
i0 = in_std_alloc_vec_Vec_grow_amortized_2e6a255000427900(RUD_AS v6 + 672u);
RUD_AGAIN
if (i0 == 0) goto L87;
v10 = AT64(v6, 680);
}
v8 = AT64(v6, 672) + (v10 * 12u);
TEST(v8);
SET32(v8, 8, (rud_rotr32(v42, 24u) & 16711935u) | rud_rotr32((v42 & 16711935u), 8u));
SET64(v8, 0, v7);
SET64(v6, 680, v10 + 1u);
a3 = a3 + 12u;
v9 = v9 - 12u;
v15 = v15 - 1u;
if (!(v15 == 0)) goto L88;
a3 = AT64(v6, 672);
SET64(v6, 454, a3);
v7 = AT64(v6, 680);
SET64(v6, 462, v7);
v10 = AT64(v6, 688);
SET64(v6, 470, v10);
SET64(v6, 624, v10);
SET64(v6, 616, v7);
SET64(v6, 608, a3);
v43 = 0u;
v42 = 0u;
j0 = 13u;
goto L83;
L87:;
if (AT64(v6, 688) == 0) goto L85;
rud_dealloc(RUD_AS AT64(v6, 672));
RUD_AGAIN
L85:;
v42 = 0u;
L84:;
SET64(v6, 624, 0u);
SET64(v6, 616, 0u);
SET64(v6, 608, 0u);
v43 = 1u;
j0 = 0u;
L83:;
a3 = j0;
SET64(v6, 600, AT64(v6, 624));
SET64(v6, 592, AT64(v6, 616));
SET64(v6, 584, AT64(v6, 608));
goto L30;
L38:;
in_mm_st15_counted_counted_entries_65c131a536ad0a17(RUD_AS v6 + 720u, v8, v10);
RUD_AGAIN
SET64(v6, 608, 0u);
SET64(v6, 616, 0u);
SET64(v6, 624, 0u);
v43 = AT8(v6, 720);
if (v43) {
i0 = AT8(v6, 721);
goto L90;
}
SET64(v6, 624, AT64(v6, 744));
SET64(v6, 616, AT64(v6, 736));
SET64(v6, 608, AT64(v6, 728));
a3 = 14u;
i0 = 0u;
L90:;
v42 = i0;
SET64(v6, 600, AT64(v6, 624));
SET64(v6, 592, AT64(v6, 616));
SET64(v6, 584, AT64(v6, 608));
goto L30;
L37:;
in_mm_st15_counted_counted_entries_65c131a536ad0a17(RUD_AS v6 + 640u, v8, v10);
RUD_AGAIN
SET64(v6, 608, 0u);
SET64(v6, 616, 0u);
SET64(v6, 624, 0u);
v43 = AT8(v6, 640);
if (v43) {
i0 = AT8(v6, 641);
goto L92;
}
SET64(v6, 624, AT64(v6, 664));
SET64(v6, 616, AT64(v6, 656));
SET64(v6, 608, AT64(v6, 648));
a3 = 15u;
i0 = 0u;
L92:;
v42 = i0;
SET64(v6, 600, AT64(v6, 624));
SET64(v6, 592, AT64(v6, 616));
SET64(v6, 584, AT64(v6, 608));
goto L30;
L36:;
v42 = 3u;
if (v10 == 0) goto L95;
TEST(v8);
v15 = (u64)AT8(v8, 0);
if (v15 == 0) goto L95;
v9 = v10 - 1u;
if (v9 != (v15 * 9u)) goto L95;
SET64(v6, 704, 0u);
SET64(v6, 712, 0u);
SET64(v6, 696, v6 + 1704u);
i0 = in_std_alloc_vec_Vec_move_to_66712223a0a96b53(RUD_AS v6 + 696u, v15);
RUD_AGAIN
if (i0 == 0) {
if (AT64(v6, 712) == 0) goto L96;
rud_dealloc(RUD_AS AT64(v6, 696));
RUD_AGAIN
goto L96;
}
a3 = v8 + 1u;
v7 = AT64(v6, 712);
SET64(v6, 631, v7);
v10 = AT64(v6, 704);
SET64(v6, 623, v10);
v8 = AT64(v6, 696);
SET64(v6, 615, v8);
SET64(v6, 672, v8);
SET64(v6, 680, v10);
SET64(v6, 688, v7);
L99:;
if (v9 <= 8u) goto L19;
TEST(a3);
v42 = AT8(a3, 8);
v7 = AT64(a3, 0);
v10 = AT64(v6, 680);
if (v10 == AT64(v6, 688)) {
i0 = in_std_alloc_vec_Vec_grow_amortized_66712223a0a96b53(RUD_AS v6 + 672u);
RUD_AGAIN
if (i0 == 0) goto L98;
v10 = AT64(v6, 680);
}
v8 = AT64(v6, 672) + (v10 * 9u);
TEST(v8);
SET8(v8, 8, v42);
SET64(v8, 0, v7);
SET64(v6, 680, v10 + 1u);
a3 = a3 + 9u;
v9 = v9 - 9u;
v15 = v15 - 1u;
if (!(v15 == 0)) goto L99;
a3 = AT64(v6, 672);
SET64(v6, 422, a3);
v7 = AT64(v6, 680);
SET64(v6, 430, v7);
v10 = AT64(v6, 688);
SET64(v6, 438, v10);
SET64(v6, 624, v10);
SET64(v6, 616, v7);
SET64(v6, 608, a3);
v43 = 0u;
v42 = 0u;
j0 = 16u;
goto L94;
L98:;
if (AT64(v6, 688) == 0) goto L96;
rud_dealloc(RUD_AS AT64(v6, 672));
RUD_AGAIN
L96:;
v42 = 0u;
L95:;
SET64(v6, 624, 0u);
SET64(v6, 616, 0u);
SET64(v6, 608, 0u);
v43 = 1u;
j0 = 0u;
L94:;
a3 = j0;
SET64(v6, 600, AT64(v6, 624));
SET64(v6, 592, AT64(v6, 616));
SET64(v6, 584, AT64(v6, 608));
goto L30;
L35:;
if (v10 == 0) goto L33;
goto L31;
L34:;
if (v10 != 0u) goto L31;
a3 = 12u;
v42 = 0u;
v43 = 0u;
goto L30;
L33:;
a3 = 9u;
v43 = 0u;
v42 = 0u;
goto L30;
}
v42 = AT8(v6, 1290);
v43 = AT8(v6, 1289);
goto L27;
L31:;
v42 = 3u;
v43 = 1u;
L30:;
SET64(v6, 544, AT64(v6, 600));
SET64(v6, 536, AT64(v6, 592));
SET64(v6, 528, AT64(v6, 584));
SET64(v6, 520, AT64(v6, 544));
SET64(v6, 512, AT64(v6, 536));
SET64(v6, 504, AT64(v6, 528));
SET64(v6, 496, AT64(v6, 520));
SET64(v6, 488, AT64(v6, 512));
SET64(v6, 480, AT64(v6, 504));
if (v43 == 0) goto L28;
L29:;
in_std_alloc_arc_Arc_drop_c3b6ee2ab0dfb523(RUD_AS a4);
RUD_AGAIN
v43 = v42 & 255u ? 3u : 0u;
goto L27;
L28:;
v42 = AT8(v6, 412);
SET8(v6, 385, v42);
v43 = AT32(v6, 408);
SET32(v6, 381, v43);
SET64(v6, 360, AT64(v6, 392));
SET64(v6, 367, AT64(v6, 399));
SET64(v6, 336, AT64(v6, 480));
SET64(v6, 344, AT64(v6, 488));
SET64(v6, 352, AT64(v6, 496));
SET8(v6, 329, v42);
SET32(v6, 325, v43);
SET64(v6, 311, AT64(v6, 367));
SET64(v6, 304, AT64(v6, 360));
SET64(v6, 296, AT64(v6, 352));
SET64(v6, 288, AT64(v6, 344));
SET64(v6, 280, AT64(v6, 336));
SET8(v6, 208, AT8(v6, 329));
SET32(v6, 204, AT32(v6, 325));
SET64(v6, 191, AT64(v6, 311));
SET64(v6, 184, AT64(v6, 304));
SET64(v6, 176, AT64(v6, 296));
SET64(v6, 168, AT64(v6, 288));
SET64(v6, 160, AT64(v6, 280));
SET8(v6, 220, AT8(v6, 208));
SET32(v6, 216, AT32(v6, 204));
SET8(v6, 224, 0u);
SET8(v6, 223, v45);
SET8(v6, 222, v44);
SET8(v6, 221, 15u);
SET64(v6, 232, AT64(v6, 191));
SET64(v6, 225, AT64(v6, 184));
SET64(v6, 240, a4);
SET64(v6, 248, a3);
SET64(v6, 272, AT64(v6, 176));
SET64(v6, 264, AT64(v6, 168));
SET64(v6, 256, AT64(v6, 160));
v43 = (u32)a3;
TEST(a1);
if (AT8(a1, 104) != 1u) goto L101;
a3 = AT64(a1, 112);
v42 = 1u << (v43 & 31);
if (v42 & 126319u) goto L101;
if (v42 & 4736u) {
j0 = 1u;
} else {
j0 = AT64(v6, 264);
}
v7 = a3 - AT64(a1, 72);
if (j0 > (a3 < v7 ? 0ull : v7)) goto L25;
L101:;
v19 = v6 + 256u;
v30 = a1 + 64u;
a3 = 1u;
v42 = 1u << (v43 & 31);
if (v42 & 126319u) goto L20;
if ((v42 & 4736u) == 0) {
a3 = AT64(v6, 264);
}
v7 = AT64(a1, 80);
v10 = AT64(a1, 72);
if ((v7 - v10) < a3) goto L26;
goto L20;
L27:;
TEST(a0);
SET64(a0, 8, 0u);
i1 = v42;
v42 = v43 & 255u;
SET8(a0, 3, v42 ? i1 : 0u);
SET8(a0, 2, v43);
SET8(a0, 1, v42 ? 5u : 0u);
SET8(a0, 0, 1u);
goto L1;
L26:;
COPY_FEW(v6 + 1096u, v30, 40u);
v7 = (v7 << 1) - v10;
a3 = a3 > v7 ? a3 : v7;
v12 = a3 > 255u ? a3 : 255ull;
a3 = 0u;
v11 = AT64(v6, 1104);
if (v11 == 0) {
j0 = AT64(v6, 1112);
goto L21;
}
v7 = AT64(v6, 1128);
v42 = v7 == 0;
if (v42) goto L105;
v16 = AT64(v6, 1112);
v8 = v16 - v11;
a3 = v11 - v7;
if (v8 < (a3 > v7 ? v7 : a3)) goto L105;
v14 = AT64(v6, 1120);
v10 = v6 + 1104u;
SET64(v6, 1104, 0u);
SET64(v6, 1112, 0u);
SET64(v6, 1120, 0u);
SET64(v6, 1128, 0u);
SET64(v6, 1296, v16);
v13 = AT64(v6, 1096);
SET64(v6, 1288, v13);
if (a3 <= v8) {
if (v7 != v11) {
v9 = ((v11 * 56u) + v13) - 56u;
v10 = ((v7 * 56u) + v13) - 56u;
L108:;
COPY_FEW(v9, v10, 56u);
v9 = v9 - 56u;
v10 = v10 - 56u;
v7 = v7 - 1u;
if (v7 != 0u) goto L108;
}
in_core_slots_Slots_move_over_28_mm_service_waiting_Waiting(RUD_AS v6 + 1288u, v14, 0u, a3);
a3 = v6 + 1120u;
SET64(v6, 1120, 0u);
SET64(v6, 1128, 0u);
goto L23;
}
if (v7 < v14) {
v15 = v14 - v7;
v8 = v7;
if (a3 >= 37u) {
v9 = v13 + (v7 * 56u);
v10 = v13 + (v14 * 56u);
L112:;
if ((v8 + v15) <= v8) {
a3 = 1960u;
L115:;
COPY_FEW(a3 + v9, a3 + v10, 56u);
a3 = a3 - 56u;
if (a3 != 0xffffffffffffffc8ull) goto L115;
goto L113;
}
a3 = 0u;
L116:;
COPY_FEW(a3 + v9, a3 + v10, 56u);
a3 = a3 + 56u;
if (a3 != 2016u) goto L116;
L113:;
v9 = v9 + 2016u;
v10 = v10 + 2016u;
v8 = v8 + 36u;
a3 = v11 - v8;
if (a3 > 36u) goto L112;
}
v10 = v8 * 56u;
v9 = v8 + v15;
v14 = v9 * 56u;
if (v8 < v9) {
if (v8 == v11) goto L109;
v9 = v10 + v13;
v10 = v13 + v14;
L118:;
COPY_FEW(v9, v10, 56u);
v9 = v9 + 56u;
v10 = v10 + 56u;
a3 = a3 - 1u;
if (!(a3 == 0)) goto L118;
goto L109;
}
if (v8 == v11) goto L109;
v8 = a3 * 56u;
v9 = ((v10 + v8) + v13) - 56u;
v10 = ((v8 + v14) + v13) - 56u;
L119:;
COPY_FEW(v9, v10, 56u);
v9 = v9 - 56u;
v10 = v10 - 56u;
a3 = a3 - 1u;
if (!(a3 == 0)) goto L119;
goto L109;
}
if (v7 <= v14) goto L109;
v9 = ((((v11 + v14) * 56u) - (v7 * 56u)) + v13) - 56u;
v10 = ((v11 * 56u) + v13) - 56u;
L120:;
COPY_FEW(v10, v9, 56u);
v10 = v10 - 56u;
v9 = v9 - 56u;
a3 = a3 - 1u;
if (a3 != 0u) goto L120;
L109:;
in_core_slots_Slots_move_over_28_mm_service_waiting_Waiting(RUD_AS v6 + 1288u, 0u, v11, v7);
SET64(v6, 1128, 0u);
SET64(v6, 1120, v7);
goto L23;
L105:;
if (v42) goto L22;
in_std_alloc_vec_deque_VecDeque_close_gap_3582c41668958e92(RUD_AS v6 + 1096u);
v10 = AT64(v6, 1104) - AT64(v6, 1128);
if (v10 == v7) goto L22;
v8 = AT64(v6, 1096) + (AT64(v6, 1120) * 56u);
if (v7 == 1u) {
COPY_FEW(v6 + 1288u, v8, 56u);
v7 = 0u;
v11 = v10 - 1u;
a3 = v11;
if (v11 >= 37u) {
v10 = v8;
L123:;
a3 = 0u;
L124:;
v9 = a3 + v10;
COPY_FEW(v9, v9 + 56u, 56u);
a3 = a3 + 56u;
if (a3 != 2016u) goto L124;
v10 = v10 + 2016u;
v7 = v7 + 36u;
a3 = v11 - v7;
if (a3 > 36u) goto L123;
}
if (v7 == v11) goto L125;
a3 = a3 * 56u;
if (a3 == 0) goto L125;
v7 = v8 + (v7 * 56u);
COPY(v7, v7 + 56u, a3);
L125:;
COPY_FEW(v8 + (v11 * 56u), v6 + 1288u, 56u);
goto L22;
}
a3 = v10 - v7;
if (a3 == 1u) {
a3 = v10 - 1u;
COPY_FEW(v6 + 1288u, v8 + (a3 * 56u), 56u);
if (a3 == 0) goto L127;
a3 = (v10 * 56u) - 56u;
if (a3 == 0) goto L127;
COPY(v8 + 56u, v8, a3);
L127:;
COPY_FEW(v8, v6 + 1288u, 56u);
goto L22;
}
v11 = a3 < v7 ? a3 : v7;
v9 = v10 - v11;
v9 = (v11 * 56u) < 16u ? ((v9 * 56u) < 4097u ? v9 : v11) : v11;
if ((v9 * 56u) < 4097u) goto L24;
v10 = 0u;
if ((u32)(v7 < 32u) | (u32)(a3 < 32u)) goto L128;
L129:;
v14 = v7 + v10;
v42 = a3 < v7;
v11 = v42 ? a3 : v7;
v13 = v8 + ((v14 - v11) * 56u);
v9 = v11;
v14 = v8 + (v14 * 56u);
v16 = RUD_G0 - 64u;
if ((s64)v16 >= (s64)16u) {
if (!(v9 == 0)) {
L133:;
v15 = v16 + 8u;
COPY_FEW(v15, v13, 56u);
COPY_FEW(v13, v14, 56u);
COPY_FEW(v14, v15, 56u);
v13 = v13 + 56u;
v14 = v14 + 56u;
v9 = v9 - 1u;
if (v9 != 0u) goto L133;
}
goto L130;
}
rud_trap();
L130:;
v9 = v42 ? 0ull : v11;
v10 = v9 + v10;
a3 = a3 - v9;
v7 = v7 - (v42 ? v11 : 0ull);
if (v7 < 32u) goto L128;
if (a3 > 31u) goto L129;
L128:;
v7 = v7 + v10;
in_core_slice_edits_reverse_between_28_mm_service_waiting_Waiting(RUD_AS v8, v10, v7);
a3 = a3 + v7;
in_core_slice_edits_reverse_between_28_mm_service_waiting_Waiting(RUD_AS v8, v7, a3);
in_core_slice_edits_reverse_between_28_mm_service_waiting_Waiting(RUD_AS v8, v10, a3);
goto L22;
L25:;
in_std_alloc_arc_Arc_drop_c3b6ee2ab0dfb523(RUD_AS a4);
RUD_AGAIN
a1 = AT64(v6, 272);
a2 = AT64(v6, 256);
switch ((u32)(u64)AT8(v6, 248) - 1u) {
case 0u: goto L149;
case 1u: goto L148;
case 2u: goto L147;
case 3u: goto L146;
case 4u: goto L145;
case 5u: goto L144;
case 6u: goto L143;
case 7u: goto L142;
case 8u: case 11u: goto L134;
case 9u: goto L141;
case 10u: goto L140;
case 12u: goto L139;
case 13u: goto L138;
case 14u: goto L137;
case 15u: goto L136;
default: goto L150;
}
L150:;
if (!(a1 == 0)) goto L135;
goto L134;
L149:;
if (!(a1 == 0)) goto L135;
goto L134;
L148:;
if (!(a1 == 0)) goto L135;
goto L134;
L147:;
if (!(a1 == 0)) goto L135;
goto L134;
L146:;
if (!(a1 == 0)) goto L135;
goto L134;
L145:;
if (!(a1 == 0)) goto L135;
goto L134;
L144:;
if (!(a1 == 0)) goto L135;
goto L134;
L143:;
if (!(a1 == 0)) goto L135;
goto L134;
L142:;
if (!(a1 == 0)) goto L135;
goto L134;
L141:;
if (!(a1 == 0)) goto L135;
goto L134;
L140:;
if (!(a1 == 0)) goto L135;
goto L134;
L139:;
if (!(a1 == 0)) goto L135;
goto L134;
L138:;
if (!(a1 == 0)) goto L135;
goto L134;
L137:;
if (!(a1 == 0)) goto L135;
goto L134;
L136:;
if (a1 == 0) goto L134;
L135:;
rud_dealloc(RUD_AS a2);
RUD_AGAIN
L134:;
TEST(a0);
SET32(a0, 0, 1025u);
SET64(a0, 8, 0u);
goto L1;
L24:;
v14 = v10;
a3 = RUD_G0 - 4096u;
RUD_G0 = a3;
if ((s64)a3 >= (s64)16u) {
FILL(a3, 0u, 4096u);
v13 = v14 - v9;
if (v7 == v9) {
v16 = v9 * 56u;
if (v16 > (a3 - v8)) {
v7 = a3;
v10 = v8;
v11 = v9;
L157:;
COPY_FEW(v7, v10, 56u);
v7 = v7 + 56u;
v10 = v10 + 56u;
v11 = v11 - 1u;
if (!(v11 == 0)) goto L157;
goto L155;
}
if (v16 == 0) goto L155;
COPY(a3, v8, v16);
L155:;
v14 = 0u;
v7 = v13;
if (v7 >= 37u) {
v10 = v8 + v16;
v11 = v8;
L159:;
if ((v9 + v14) <= v14) {
v7 = 1960u;
L162:;
COPY_FEW(v7 + v11, v7 + v10, 56u);
v7 = v7 - 56u;
if (v7 != 0xffffffffffffffc8ull) goto L162;
goto L160;
}
v7 = 0u;
L163:;
COPY_FEW(v7 + v11, v7 + v10, 56u);
v7 = v7 + 56u;
if (v7 != 2016u) goto L163;
L160:;
v11 = v11 + 2016u;
v10 = v10 + 2016u;
v14 = v14 + 36u;
v7 = v13 - v14;
if (v7 > 36u) goto L159;
}
v10 = v14 * 56u;
v15 = v9 + v14;
v11 = v15 * 56u;
if (v14 < v15) {
if (v13 == v14) goto L164;
v10 = v8 + v10;
v11 = v8 + v11;
L166:;
COPY_FEW(v10, v11, 56u);
v10 = v10 + 56u;
v11 = v11 + 56u;
v7 = v7 - 1u;
if (!(v7 == 0)) goto L166;
goto L164;
}
if (v13 == v14) goto L164;
v14 = v7 * 56u;
v10 = ((v10 + v14) + v8) - 56u;
v11 = ((v11 + v14) + v8) - 56u;
L167:;
COPY_FEW(v10, v11, 56u);
v10 = v10 - 56u;
v11 = v11 - 56u;
v7 = v7 - 1u;
if (v7 != 0u) goto L167;
L164:;
v7 = v8 + (v13 * 56u);
if (v16 > (v7 - a3)) {
v10 = a3;
L169:;
COPY_FEW(v7, v10, 56u);
v7 = v7 + 56u;
v10 = v10 + 56u;
v9 = v9 - 1u;
if (!(v9 == 0)) goto L169;
goto L153;
}
if (v16 == 0) goto L153;
COPY(v7, a3, v16);
goto L153;
}
v16 = v9 * 56u;
v7 = v8 + (v13 * 56u);
if (v16 > (a3 - v7)) {
if (v9 == 0) goto L171;
v10 = a3;
v11 = v9;
L174:;
COPY_FEW(v10, v7, 56u);
v10 = v10 + 56u;
v7 = v7 + 56u;
v11 = v11 - 1u;
if (!(v11 == 0)) goto L174;
goto L172;
}
if (!(v16 == 0)) {
COPY(a3, v7, v16);
}
if (v9 == 0) goto L171;
L172:;
if (v9 != v14) {
v10 = v9 * 0xffffffffffffffc8ull;
v7 = ((v14 * 56u) + v8) - 56u;
L177:;
COPY_FEW(v7, v7 + v10, 56u);
v7 = v7 - 56u;
v13 = v13 - 1u;
if (v13 != 0u) goto L177;
}
if ((v8 - a3) >= v16) goto L170;
v7 = a3;
L178:;
COPY_FEW(v8, v7, 56u);
v8 = v8 + 56u;
v7 = v7 + 56u;
v9 = v9 - 1u;
if (v9 != 0u) goto L178;
goto L153;
L171:;
if ((v8 - a3) < v16) goto L153;
L170:;
if (v16 == 0) goto L153;
COPY(v8, a3, v16);
L153:;
RUD_G0 = a3 + 4096u;
goto L151;
}
rud_trap();
L151:;
goto L22;
L23:;
SET64(v6, 1112, v16);
SET64(v6, 1104, v11);
L22:;
in_std_alloc_vec_deque_VecDeque_close_gap_3582c41668958e92(RUD_AS v6 + 1096u);
a3 = AT64(v6, 1104);
j0 = AT64(v6, 1112);
L21:;
v8 = j0;
v10 = AT64(v6, 1096);
if ((v8 - a3) >= v12) {
v7 = v8;
goto L180;
}
if (v12 > (a3 ^ 0xffffffffffffffffull)) goto L179;
v7 = a3 + v12;
if (v7 > 164703072086692425ull) goto L179;
if (!(v8 == 0)) {
SET64(v6, 1296, 0u);
SET64(v6, 1288, 0u);
rud_realloc(RUD_AS v6 + 1288u, v10, a3 * 56u, v7 * 56u, 8u);
RUD_AGAIN
if (AT8(v6, 1288) == 0) goto L179;
v10 = AT64(v6, 1296);
goto L180;
}
in_std_heap_GlobalAllocator_allocate(RUD_AS v6 + 112u, v7 * 56u, 8u);
RUD_AGAIN
if (AT8(v6, 112)) goto L179;
v10 = AT64(v6, 120);
L180:;
SET64(a1, 88, 0u);
SET64(a1, 80, v7);
SET64(a1, 72, a3);
SET64(a1, 64, v10);
SET64(a1, 96, 0u);
goto L20;
L179:;
SET64(a1, 88, 0u);
SET64(a1, 80, v8);
SET64(a1, 72, a3);
SET64(a1, 64, v10);
SET64(a1, 96, 0u);
in_std_alloc_arc_Arc_drop_c3b6ee2ab0dfb523(RUD_AS a4);
RUD_AGAIN
a1 = AT64(v6, 272);
a2 = AT64(v6, 256);
switch ((u32)(u64)AT8(v6, 248) - 1u) {
case 0u: goto L198;
case 1u: goto L197;
case 2u: goto L196;
case 3u: goto L195;
case 4u: goto L194;
case 5u: goto L193;
case 6u: goto L192;
case 7u: goto L191;
case 8u: case 11u: goto L183;
case 9u: goto L190;
case 10u: goto L189;
case 12u: goto L188;
case 13u: goto L187;
case 14u: goto L186;
case 15u: goto L185;
default: goto L199;
}
L199:;
if (!(a1 == 0)) goto L184;
goto L183;
L198:;
if (!(a1 == 0)) goto L184;
goto L183;
L197:;
if (!(a1 == 0)) goto L184;
goto L183;
L196:;
if (!(a1 == 0)) goto L184;
goto L183;
L195:;
if (!(a1 == 0)) goto L184;
goto L183;
L194:;
if (!(a1 == 0)) goto L184;
goto L183;
L193:;
if (!(a1 == 0)) goto L184;
goto L183;
L192:;
if (!(a1 == 0)) goto L184;
goto L183;
L191:;
if (!(a1 == 0)) goto L184;
goto L183;
L190:;
if (!(a1 == 0)) goto L184;
goto L183;
L189:;
if (!(a1 == 0)) goto L184;
goto L183;
L188:;
if (!(a1 == 0)) goto L184;
goto L183;
L187:;
if (!(a1 == 0)) goto L184;
goto L183;
L186:;
if (!(a1 == 0)) goto L184;
goto L183;
L185:;
if (a1 == 0) goto L183;
L184:;
rud_dealloc(RUD_AS a2);
RUD_AGAIN
L183:;
TEST(a0);
SET32(a0, 0, 1u);
SET64(a0, 8, 0u);
goto L1;
L20:;
v16 = 0u;
SET64(v6, 480, 0u);
SET64(v6, 488, 0u);
SET64(v6, 496, 0u);
SET64(v6, 448, 0u);
SET64(v6, 456, 0u);
SET64(v6, 464, 0u);
SET64(v6, 471, 0u);
SET64(v6, 720, 0u);
SET64(v6, 728, 0u);
SET64(v6, 736, 0u);
SET64(v6, 744, 0u);
SET64(v6, 696, 0u);
SET64(v6, 704, 0u);
SET64(v6, 712, 0u);
SET64(v6, 672, 0u);
SET64(v6, 680, 0u);
SET64(v6, 688, 0u);
SET64(v6, 640, 0u);
SET64(v6, 648, 0u);
SET64(v6, 656, 0u);
SET64(v6, 664, 0u);
SET64(v6, 632, 0u);
SET64(v6, 624, 0u);
SET64(v6, 616, 0u);
SET64(v6, 608, 0u);
SET64(v6, 600, 0u);
SET64(v6, 592, 0u);
SET64(v6, 584, 0u);
SET64(v6, 576, 0u);
SET64(v6, 568, 0u);
SET64(v6, 560, 0u);
SET64(v6, 552, 0u);
SET64(v6, 544, 0u);
SET64(v6, 536, 0u);
SET64(v6, 528, 0u);
SET64(v6, 520, 0u);
SET64(v6, 512, 0u);
SET64(v6, 504, 0u);
switch (v43 - 1u) {
case 0u: goto L225;
case 1u: goto L224;
case 2u: goto L223;
case 3u: goto L222;
case 4u: goto L221;
case 5u: goto L220;
case 6u: goto L219;
case 7u: goto L218;
case 8u: case 11u: goto L215;
case 9u: goto L217;
case 10u: goto L210;
case 12u: goto L211;
case 13u: goto L212;
case 14u: goto L213;
case 15u: goto L214;
default: goto L216;
}
L225:;
SET8(v6, 672, 1u);
in_mm_memory_request_change_each(RUD_AS v6 + 720u, v19, v6 + 672u);
RUD_AGAIN
goto L209;
L224:;
in_mm_memory_request_each_efff6ba37075a2ab(RUD_AS v6 + 720u, v19, 0u);
RUD_AGAIN
goto L209;
L223:;
in_mm_memory_request_each_efff6ba37075a2ab(RUD_AS v6 + 720u, v19, 1u);
RUD_AGAIN
goto L209;
L222:;
SET8(v6, 640, 3u);
in_mm_memory_request_each_1d19660126d51927(RUD_AS v6 + 720u, v19, v6 + 640u);
RUD_AGAIN
goto L209;
L221:;
v8 = 0u;
SET64(v6, 775, 0u);
SET64(v6, 768, 0u);
SET64(v6, 760, 0u);
SET64(v6, 752, 0u);
v9 = AT64(v6, 256);
v16 = AT64(v6, 264);
SET64(v6, 807, 0u);
SET64(v6, 800, 0u);
SET64(v6, 792, 0u);
SET64(v6, 784, 0u);
SET64(v6, 416, v6 + 1704u);
FILL_FEW(v6 + 816u, 0u, 45u);
FILL_FEW(v6 + 912u, 0u, 45u);
SET64(v6, 432, 0u);
SET64(v6, 424, 0u);
FILL_FEW(v6 + 1048u, 0u, 45u);
v13 = 0u;
if (v16 == 0) goto L227;
v20 = v6 + 821u;
v23 = v6 + 917u;
v21 = v6 + 869u;
v24 = v6 + 1053u;
v14 = v6 + 1005u;
v19 = v6 + 1493u;
v12 = v6 + 1597u;
v15 = v6 + 1101u;
v22 = v6 + 1296u;
v18 = v6 + 969u;
v17 = v6 + 424u;
a3 = v6 + 1704u;
v11 = 0u;
L228:;
v7 = v13 - v11;
a3 = a3 + (v13 * 48u);
v10 = 0u;
L230:;
v25 = v6 + 1288u;
FILL_FEW(v25, 0u, 48u);
SET64(v6, 960, 0u);
TEST(v9);
SET64(v6, 336, AT64(v9, 0));
v26 = AT64(v9, 8);
v27 = AT64(v9, 16);
SET32(v6, 969, 0u);
SET32(v6, 972, 0u);
SET8(v6, 968, 4u);
SET64(v6, 992, v27);
SET64(v6, 984, v26);
SET64(v6, 976, 2u);
in_mm_memory_validation_parsed(RUD_AS v25, v6 + 336u, v6 + 960u);
v42 = AT8(v6, 1290);
v44 = AT8(v6, 1289);
v45 = AT8(v6, 1288);
COPY_FEW(v15, v22, 40u);
COPY_FEW(v12, v15, 40u);
COPY_FEW(v19, v12, 40u);
COPY_FEW(v14, v19, 40u);
if ((v7 + v10) == 0) goto L229;
TEST(a3);
SET8(a3, 0, v45);
SET8(a3, 2, v42);
SET8(a3, 1, v44);
COPY_FEW(a3 + 8u, v14, 40u);
v9 = v9 + 24u;
a3 = a3 + 48u;
v10 = v10 + 1u;
if (v16 != v10) goto L230;
v13 = v10 + v13;
goto L227;
L229:;
COPY_FEW(v24, v14, 40u);
COPY_FEW(v6 + 864u, v6 + 1048u, 45u);
SET64(v6, 432, v8);
SET64(v6, 424, v11);
COPY_FEW(v23, v21, 40u);
COPY_FEW(v6 + 816u, v6 + 912u, 45u);
v7 = (v10 ^ 0xffffffffffffffffull) + v16;
i0 = in_std_alloc_vec_Vec_grow_by_hint_c7528f268d97bc21(RUD_AS v6 + 416u, v7);
RUD_AGAIN
if (i0 == 0) goto L226;
v9 = v9 + 24u;
v25 = v16 - 1u;
a3 = AT64(v6, 416);
v11 = AT64(v6, 424);
v8 = a3 + (v11 * 48u);
TEST(v8);
SET8(v8, 0, v45);
SET8(v8, 2, v42);
SET8(v8, 1, v44);
COPY_FEW(v8 + 8u, v20, 40u);
FILL_FEW(v6 + 912u, 0u, 45u);
SET64(v6, 424, 0u);
v8 = AT64(v6, 432);
SET64(v6, 432, 0u);
FILL_FEW(v6 + 1048u, 0u, 45u);
v13 = v11 + 1u;
v11 = v13 == 0 ? 0ull : v8;
v16 = v7;
if (v10 != v25) goto L228;
L227:;
a3 = AT64(v6, 416);
SET64(v6, 759, a3);
SET64(v6, 767, v13);
SET64(v6, 775, v8);
SET8(v6, 720, 0u);
SET64(v6, 744, v8);
SET64(v6, 736, v13);
SET64(v6, 728, a3);
goto L209;
L226:;
if (!(AT64(v6, 432) == 0)) {
rud_dealloc(RUD_AS AT64(v6, 416));
RUD_AGAIN
}
SET64(v6, 728, 0u);
SET8(v6, 720, 1u);
SET64(v6, 736, 0u);
SET64(v6, 744, 0u);
goto L209;
L220:;
v13 = 0u;
SET64(v6, 775, 0u);
SET64(v6, 768, 0u);
SET64(v6, 760, 0u);
SET64(v6, 752, 0u);
v9 = AT64(v6, 256);
v7 = AT64(v6, 264);
SET64(v6, 807, 0u);
SET64(v6, 800, 0u);
SET64(v6, 792, 0u);
SET64(v6, 784, 0u);
SET64(v6, 416, v6 + 1704u);
FILL_FEW(v6 + 816u, 0u, 45u);
FILL_FEW(v6 + 912u, 0u, 45u);
SET64(v6, 432, 0u);
SET64(v6, 424, 0u);
FILL_FEW(v6 + 1048u, 0u, 45u);
v12 = 0u;
if (v7 == 0) goto L233;
v20 = v6 + 821u;
v23 = v6 + 917u;
v21 = v6 + 869u;
v24 = v6 + 1053u;
v14 = v6 + 1005u;
v16 = v6 + 1493u;
v19 = v6 + 1597u;
v15 = v6 + 1101u;
v22 = v6 + 1296u;
v18 = v6 + 969u;
v17 = v6 + 424u;
a3 = v6 + 1704u;
v8 = 0u;
L234:;
v11 = v12 - v8;
a3 = a3 + (v12 * 48u);
v10 = 0u;
L236:;
v25 = v6 + 1288u;
FILL_FEW(v25, 0u, 48u);
SET64(v6, 960, 0u);
TEST(v9);
SET64(v6, 336, AT64(v9, 0));
v26 = AT64(v9, 8);
SET32(v6, 969, 0u);
SET32(v6, 972, 0u);
SET8(v6, 968, 4u);
SET64(v6, 992, 0u);
SET64(v6, 984, v26);
SET64(v6, 976, 4u);
in_mm_memory_validation_parsed(RUD_AS v25, v6 + 336u, v6 + 960u);
v42 = AT8(v6, 1290);
v44 = AT8(v6, 1289);
v45 = AT8(v6, 1288);
COPY_FEW(v15, v22, 40u);
COPY_FEW(v19, v15, 40u);
COPY_FEW(v16, v19, 40u);
COPY_FEW(v14, v16, 40u);
if ((v10 + v11) == 0) goto L235;
TEST(a3);
SET8(a3, 0, v45);
SET8(a3, 2, v42);
SET8(a3, 1, v44);
COPY_FEW(a3 + 8u, v14, 40u);
v9 = v9 + 16u;
a3 = a3 + 48u;
v10 = v10 + 1u;
if (v7 != v10) goto L236;
v12 = v10 + v12;
goto L233;
L235:;
COPY_FEW(v24, v14, 40u);
COPY_FEW(v6 + 864u, v6 + 1048u, 45u);
SET64(v6, 432, v13);
SET64(v6, 424, v8);
COPY_FEW(v23, v21, 40u);
COPY_FEW(v6 + 816u, v6 + 912u, 45u);
v11 = (v10 ^ 0xffffffffffffffffull) + v7;
i0 = in_std_alloc_vec_Vec_grow_by_hint_c7528f268d97bc21(RUD_AS v6 + 416u, v11);
RUD_AGAIN
if (i0 == 0) goto L232;
v9 = v9 + 16u;
v25 = v7 - 1u;
a3 = AT64(v6, 416);
v8 = AT64(v6, 424);
v7 = a3 + (v8 * 48u);
TEST(v7);
SET8(v7, 0, v45);
SET8(v7, 2, v42);
SET8(v7, 1, v44);
COPY_FEW(v7 + 8u, v20, 40u);
FILL_FEW(v6 + 912u, 0u, 45u);
SET64(v6, 424, 0u);
v13 = AT64(v6, 432);
SET64(v6, 432, 0u);
FILL_FEW(v6 + 1048u, 0u, 45u);
v12 = v8 + 1u;
v8 = v12 == 0 ? 0ull : v13;
v7 = v11;
if (v10 != v25) goto L234;
L233:;
a3 = AT64(v6, 416);
SET64(v6, 759, a3);
SET64(v6, 767, v12);
SET64(v6, 775, v13);
SET8(v6, 720, 0u);
SET64(v6, 744, v13);
SET64(v6, 736, v12);
SET64(v6, 728, a3);
goto L209;
L232:;
if (!(AT64(v6, 432) == 0)) {
rud_dealloc(RUD_AS AT64(v6, 416));
RUD_AGAIN
}
SET64(v6, 728, 0u);
SET8(v6, 720, 1u);
SET64(v6, 736, 0u);
SET64(v6, 744, 0u);
goto L209;
L219:;
SET8(v6, 608, 3u);
in_mm_memory_request_each_1d19660126d51927(RUD_AS v6 + 720u, v19, v6 + 608u);
RUD_AGAIN
goto L209;
L218:;
SET8(v6, 584, 3u);
in_mm_memory_request_change_each(RUD_AS v6 + 720u, v19, v6 + 584u);
RUD_AGAIN
goto L209;
L217:;
v13 = 0u;
SET64(v6, 775, 0u);
SET64(v6, 768, 0u);
SET64(v6, 760, 0u);
SET64(v6, 752, 0u);
v9 = AT64(v6, 256);
v11 = AT64(v6, 264);
SET64(v6, 807, 0u);
SET64(v6, 800, 0u);
SET64(v6, 792, 0u);
SET64(v6, 784, 0u);
SET64(v6, 416, v6 + 1704u);
FILL_FEW(v6 + 816u, 0u, 45u);
FILL_FEW(v6 + 912u, 0u, 45u);
SET64(v6, 432, 0u);
SET64(v6, 424, 0u);
FILL_FEW(v6 + 1048u, 0u, 45u);
FILL_FEW(v6 + 1000u, 0u, 45u);
v12 = 0u;
if (v11 == 0) goto L239;
v23 = v6 + 821u;
v21 = v6 + 917u;
v24 = v6 + 869u;
v22 = v6 + 1053u;
v14 = v6 + 1005u;
v15 = v6 + 1493u;
v18 = v6 + 1597u;
v17 = v6 + 1101u;
v25 = v6 + 1296u;
v16 = v6 + 978u;
v19 = (v6 + 960u) | 2u;
v20 = v6 + 424u;
a3 = v6 + 1704u;
v8 = 0u;
L240:;
v7 = v12 - v8;
a3 = a3 + (v12 * 48u);
v10 = 0u;
L242:;
FILL_FEW(v6 + 1288u, 0u, 48u);
FILL_FEW(v6 + 960u, 0u, 40u);
TEST(v9);
SET64(v6, 336, AT64(v9, 0));
v42 = AT8(v9, 12);
if (v42 <= 1u) {
v44 = AT8(v9, 13);
if (v44 >= 8u) goto L244;
v45 = AT32(v9, 8);
if ((v45 - 1u) < 1000000u) {
SET64(v6, 978, 0u);
SET64(v6, 986, 0u);
SET64(v6, 992, 0u);
SET32(v6, 968, 0u);
SET64(v6, 960, 0u);
SET8(v6, 977, v44);
SET8(v6, 976, v42);
SET32(v6, 972, v45);
goto L243;
}
SET16(v6, 960, 1537u);
FILL_FEW(v19, 0u, 38u);
goto L243;
}
SET16(v6, 960, 513u);
FILL_FEW(v19, 0u, 38u);
goto L243;
L244:;
SET16(v6, 960, 513u);
FILL_FEW(v19, 0u, 38u);
L243:;
in_mm_memory_validation_parsed(RUD_AS v6 + 1288u, v6 + 336u, v6 + 960u);
v42 = AT8(v6, 1290);
v44 = AT8(v6, 1289);
v45 = AT8(v6, 1288);
COPY_FEW(v17, v25, 40u);
COPY_FEW(v18, v17, 40u);
COPY_FEW(v15, v18, 40u);
COPY_FEW(v14, v15, 40u);
if ((v7 + v10) == 0) goto L241;
TEST(a3);
SET8(a3, 0, v45);
SET8(a3, 2, v42);
SET8(a3, 1, v44);
COPY_FEW(a3 + 8u, v14, 40u);
v9 = v9 + 16u;
a3 = a3 + 48u;
v10 = v10 + 1u;
if (v11 != v10) goto L242;
v12 = v10 + v12;
goto L239;
L241:;
COPY_FEW(v22, v14, 40u);
COPY_FEW(v6 + 864u, v6 + 1048u, 45u);
SET64(v6, 432, v13);
SET64(v6, 424, v8);
COPY_FEW(v21, v24, 40u);
COPY_FEW(v6 + 816u, v6 + 912u, 45u);
v7 = (v10 ^ 0xffffffffffffffffull) + v11;
i0 = in_std_alloc_vec_Vec_grow_by_hint_c7528f268d97bc21(RUD_AS v6 + 416u, v7);
RUD_AGAIN
if (i0 == 0) goto L238;
v9 = v9 + 16u;
v26 = v11 - 1u;
a3 = AT64(v6, 416);
v11 = AT64(v6, 424);
v8 = a3 + (v11 * 48u);
TEST(v8);
SET8(v8, 0, v45);
SET8(v8, 2, v42);
SET8(v8, 1, v44);
COPY_FEW(v8 + 8u, v23, 40u);
FILL_FEW(v6 + 912u, 0u, 45u);
SET64(v6, 424, 0u);
v13 = AT64(v6, 432);
SET64(v6, 432, 0u);
FILL_FEW(v6 + 1048u, 0u, 45u);
FILL_FEW(v6 + 1000u, 0u, 45u);
v12 = v11 + 1u;
v8 = v12 == 0 ? 0ull : v13;
v11 = v7;
if (v10 != v26) goto L240;
L239:;
a3 = AT64(v6, 416);
SET64(v6, 759, a3);
SET64(v6, 767, v12);
SET64(v6, 775, v13);
SET8(v6, 720, 0u);
SET64(v6, 744, v13);
SET64(v6, 736, v12);
SET64(v6, 728, a3);
goto L209;
L238:;
if (!(AT64(v6, 432) == 0)) {
rud_dealloc(RUD_AS AT64(v6, 416));
RUD_AGAIN
}
SET64(v6, 728, 0u);
SET8(v6, 720, 1u);
SET64(v6, 736, 0u);
SET64(v6, 744, 0u);
goto L209;
L216:;
in_mm_memory_request_change_each(RUD_AS v6 + 720u, v19, v6 + 696u);
RUD_AGAIN
goto L209;
L215:;
v45 = 1u;
v10 = 0u;
v15 = v6 + 1704u;
j0 = v15;
goto L208;
L214:;
SET64(v6, 775, 0u);
SET64(v6, 768, 0u);
SET64(v6, 760, 0u);
SET64(v6, 752, 0u);
v9 = AT64(v6, 256);
v7 = AT64(v6, 264);
SET64(v6, 807, 0u);
SET64(v6, 800, 0u);
SET64(v6, 792, 0u);
SET64(v6, 784, 0u);
SET64(v6, 416, v6 + 1704u);
FILL_FEW(v6 + 816u, 0u, 45u);
FILL_FEW(v6 + 912u, 0u, 45u);
SET64(v6, 432, 0u);
SET64(v6, 424, 0u);
FILL_FEW(v6 + 1048u, 0u, 45u);
FILL_FEW(v6 + 1000u, 0u, 45u);
v8 = 0u;
if (v7 == 0) goto L249;
v21 = v6 + 821u;
v24 = v6 + 917u;
v22 = v6 + 869u;
v25 = v6 + 1053u;
v19 = v6 + 1005u;
v15 = v6 + 1493u;
v18 = v6 + 1597u;
v17 = v6 + 1101u;
v26 = v6 + 1296u;
v12 = v6 + 978u;
v14 = v6 + 970u;
v20 = (v6 + 960u) | 2u;
v23 = v6 + 424u;
a3 = v6 + 1704u;
v11 = 0u;
L250:;
v13 = v8 - v11;
a3 = a3 + (v8 * 48u);
v10 = 0u;
L252:;
v42 = 0u;
FILL_FEW(v6 + 1288u, 0u, 48u);
SET64(v6, 968, 0u);
SET64(v6, 960, 0u);
TEST(v9);
SET64(v6, 336, AT64(v9, 0));
v44 = 7u;
v45 = AT8(v9, 8);
if (v45 <= 7u) {
SET16(v6, 974, 0u);
SET32(v6, 970, 0u);
v42 = 4u;
goto L253;
}
SET32(v6, 970, 0u);
SET16(v6, 974, 0u);
TEST(v20);
SET32(v20, 0, 0u);
SET16(v20, 4, 0u);
SET16(v6, 960, 513u);
v44 = 0u;
v45 = 0u;
L253:;
SET64(v6, 978, 0u);
SET64(v6, 986, 0u);
SET64(v6, 992, 0u);
SET8(v6, 977, v45);
SET8(v6, 976, v44);
SET8(v6, 969, 0u);
SET8(v6, 968, v42);
in_mm_memory_validation_parsed(RUD_AS v6 + 1288u, v6 + 336u, v6 + 960u);
v42 = AT8(v6, 1290);
v44 = AT8(v6, 1289);
v45 = AT8(v6, 1288);
COPY_FEW(v17, v26, 40u);
COPY_FEW(v18, v17, 40u);
COPY_FEW(v15, v18, 40u);
COPY_FEW(v19, v15, 40u);
if ((v10 + v13) == 0) goto L251;
TEST(a3);
SET8(a3, 0, v45);
SET8(a3, 2, v42);
SET8(a3, 1, v44);
COPY_FEW(a3 + 8u, v19, 40u);
v9 = v9 + 9u;
a3 = a3 + 48u;
v10 = v10 + 1u;
if (v7 != v10) goto L252;
v8 = v8 + v10;
goto L249;
L251:;
COPY_FEW(v25, v19, 40u);
COPY_FEW(v6 + 864u, v6 + 1048u, 45u);
SET64(v6, 432, v16);
SET64(v6, 424, v11);
COPY_FEW(v24, v22, 40u);
COPY_FEW(v6 + 816u, v6 + 912u, 45u);
v13 = (v10 ^ 0xffffffffffffffffull) + v7;
i0 = in_std_alloc_vec_Vec_grow_by_hint_c7528f268d97bc21(RUD_AS v6 + 416u, v13);
RUD_AGAIN
if (i0 == 0) goto L248;
v9 = v9 + 9u;
v27 = v7 - 1u;
a3 = AT64(v6, 416);
v8 = AT64(v6, 424);
v7 = a3 + (v8 * 48u);
TEST(v7);
SET8(v7, 0, v45);
SET8(v7, 2, v42);
SET8(v7, 1, v44);
COPY_FEW(v7 + 8u, v21, 40u);
FILL_FEW(v6 + 912u, 0u, 45u);
SET64(v6, 424, 0u);
v16 = AT64(v6, 432);
SET64(v6, 432, 0u);
FILL_FEW(v6 + 1048u, 0u, 45u);
FILL_FEW(v6 + 1000u, 0u, 45u);
v8 = v8 + 1u;
v11 = v8 == 0 ? 0ull : v16;
v7 = v13;
if (v10 != v27) goto L250;
L249:;
a3 = AT64(v6, 416);
SET64(v6, 759, a3);
SET64(v6, 767, v8);
SET64(v6, 775, v16);
SET8(v6, 720, 0u);
SET64(v6, 744, v16);
SET64(v6, 736, v8);
SET64(v6, 728, a3);
goto L209;
L248:;
if (!(AT64(v6, 432) == 0)) {
rud_dealloc(RUD_AS AT64(v6, 416));
RUD_AGAIN
}
SET64(v6, 728, 0u);
SET8(v6, 720, 1u);
SET64(v6, 736, 0u);
SET64(v6, 744, 0u);
goto L209;
L213:;
SET16(v6, 504, 262u);
in_mm_memory_request_change_each(RUD_AS v6 + 720u, v19, v6 + 504u);
RUD_AGAIN
goto L209;
L212:;
SET8(v6, 528, 6u);
in_mm_memory_request_change_each(RUD_AS v6 + 720u, v19, v6 + 528u);
RUD_AGAIN
goto L209;
L211:;
v8 = 0u;
SET64(v6, 775, 0u);
SET64(v6, 768, 0u);
SET64(v6, 760, 0u);
SET64(v6, 752, 0u);
v9 = AT64(v6, 256);
v7 = AT64(v6, 264);
SET64(v6, 807, 0u);
SET64(v6, 800, 0u);
SET64(v6, 792, 0u);
SET64(v6, 784, 0u);
SET64(v6, 416, v6 + 1704u);
FILL_FEW(v6 + 816u, 0u, 45u);
FILL_FEW(v6 + 912u, 0u, 45u);
SET64(v6, 432, 0u);
SET64(v6, 424, 0u);
FILL_FEW(v6 + 1048u, 0u, 45u);
FILL_FEW(v6 + 1000u, 0u, 45u);
v13 = 0u;
if (v7 == 0) goto L257;
v21 = v6 + 821u;
v24 = v6 + 917u;
v22 = v6 + 869u;
v25 = v6 + 1053u;
v19 = v6 + 1005u;
v12 = v6 + 1493u;
v15 = v6 + 1597u;
v18 = v6 + 1101u;
v26 = v6 + 1296u;
v17 = v6 + 984u;
v16 = v6 + 970u;
v20 = (v6 + 960u) | 2u;
v23 = v6 + 424u;
a3 = v6 + 1704u;
v11 = 0u;
L258:;
v14 = v13 - v11;
a3 = a3 + (v13 * 48u);
v10 = 0u;
L260:;
v42 = 0u;
FILL_FEW(v6 + 1288u, 0u, 48u);
SET64(v6, 968, 0u);
SET64(v6, 960, 0u);
TEST(v9);
SET64(v6, 336, AT64(v9, 0));
v44 = AT32(v9, 8);
if ((v44 - 1u) <= 999999u) {
SET16(v6, 974, 0u);
SET32(v6, 970, 0u);
v42 = 4u;
i0 = 5u;
goto L261;
}
SET32(v6, 970, 0u);
SET16(v6, 974, 0u);
TEST(v20);
SET32(v20, 0, 0u);
SET16(v20, 4, 0u);
SET16(v6, 960, 1537u);
v44 = 0u;
i0 = 0u;
L261:;
v45 = i0;
SET64(v6, 984, 0u);
SET64(v6, 992, 0u);
SET32(v6, 980, v44);
SET16(v6, 978, 0u);
SET8(v6, 977, 0u);
SET8(v6, 976, v45);
SET8(v6, 969, 0u);
SET8(v6, 968, v42);
in_mm_memory_validation_parsed(RUD_AS v6 + 1288u, v6 + 336u, v6 + 960u);
v42 = AT8(v6, 1290);
v44 = AT8(v6, 1289);
v45 = AT8(v6, 1288);
COPY_FEW(v18, v26, 40u);
COPY_FEW(v15, v18, 40u);
COPY_FEW(v12, v15, 40u);
COPY_FEW(v19, v12, 40u);
if ((v10 + v14) == 0) goto L259;
TEST(a3);
SET8(a3, 0, v45);
SET8(a3, 2, v42);
SET8(a3, 1, v44);
COPY_FEW(a3 + 8u, v19, 40u);
v9 = v9 + 12u;
a3 = a3 + 48u;
v10 = v10 + 1u;
if (v7 != v10) goto L260;
v13 = v10 + v13;
goto L257;
L259:;
COPY_FEW(v25, v19, 40u);
COPY_FEW(v6 + 864u, v6 + 1048u, 45u);
SET64(v6, 432, v8);
SET64(v6, 424, v11);
COPY_FEW(v24, v22, 40u);
COPY_FEW(v6 + 816u, v6 + 912u, 45u);
v14 = (v10 ^ 0xffffffffffffffffull) + v7;
i0 = in_std_alloc_vec_Vec_grow_by_hint_c7528f268d97bc21(RUD_AS v6 + 416u, v14);
RUD_AGAIN
if (i0 == 0) goto L256;
v9 = v9 + 12u;
v27 = v7 - 1u;
a3 = AT64(v6, 416);
v11 = AT64(v6, 424);
v7 = a3 + (v11 * 48u);
TEST(v7);
SET8(v7, 0, v45);
SET8(v7, 2, v42);
SET8(v7, 1, v44);
COPY_FEW(v7 + 8u, v21, 40u);
FILL_FEW(v6 + 912u, 0u, 45u);
SET64(v6, 424, 0u);
v8 = AT64(v6, 432);
SET64(v6, 432, 0u);
FILL_FEW(v6 + 1048u, 0u, 45u);
FILL_FEW(v6 + 1000u, 0u, 45u);
v13 = v11 + 1u;
v11 = v13 == 0 ? 0ull : v8;
v7 = v14;
if (v10 != v27) goto L258;
L257:;
a3 = AT64(v6, 416);
SET64(v6, 759, a3);
SET64(v6, 767, v13);
SET64(v6, 775, v8);
SET8(v6, 720, 0u);
SET64(v6, 744, v8);
SET64(v6, 736, v13);
SET64(v6, 728, a3);
goto L209;
L256:;
if (!(AT64(v6, 432) == 0)) {
rud_dealloc(RUD_AS AT64(v6, 416));
RUD_AGAIN
}
SET64(v6, 728, 0u);
SET8(v6, 720, 1u);
SET64(v6, 736, 0u);
SET64(v6, 744, 0u);
goto L209;
L210:;
SET8(v6, 552, 1u);
in_mm_memory_request_each_1d19660126d51927(RUD_AS v6 + 720u, v19, v6 + 552u);
RUD_AGAIN
L209:;
if (AT8(v6, 720)) goto L201;
v16 = AT64(v6, 744);
v15 = AT64(v6, 728);
v10 = AT64(v6, 736);
if (v10 == 0) {
v10 = 0u;
v45 = 1u;
j0 = v6 + 1704u;
goto L208;
}
if (v10 > 3074457345618258602ull) goto L207;
in_std_heap_GlobalAllocator_allocate(RUD_AS v6 + 96u, v10 * 3u, 1u);
RUD_AGAIN
if (AT8(v6, 96)) goto L207;
v45 = 0u;
j0 = AT64(v6, 104);
L208:;
v19 = j0;
v7 = 0u;
SET64(v6, 912, 0u);
SET64(v6, 920, 0u);
SET64(v6, 928, 0u);
SET64(v6, 936, 0u);
SET64(v6, 960, 0u);
SET64(v6, 968, 0u);
SET64(v6, 976, 0u);
SET64(v6, 983, 0u);
FILL_FEW(v6 + 1488u, 0u, 48u);
SET64(v6, 743, 0u);
SET64(v6, 736, 0u);
SET64(v6, 728, 0u);
SET64(v6, 720, 0u);
FILL_FEW(v6 + 1048u, 0u, 48u);
SET64(v6, 663, 0u);
SET64(v6, 656, 0u);
SET64(v6, 648, 0u);
SET64(v6, 640, 0u);
FILL_FEW(v6 + 1000u, 0u, 48u);
switch (v43 - 4u) {
case 0u: goto L268;
default: goto L206;
case 3u: goto L267;
case 5u: goto L266;
case 8u: goto L265;
}
L268:;
v22 = AT64(v6, 256);
v23 = AT64(v6, 264);
v12 = 0u;
SET64(v6, 784, 0u);
SET64(v6, 792, 0u);
SET64(v6, 800, 0u);
FILL_FEW(v6 + 1288u, 0u, 56u);
FILL_FEW(v6 + 1592u, 0u, 48u);
SET64(v6, 560, 0u);
SET64(v6, 568, 0u);
SET64(v6, 552, v6 + 1704u);
if (!(v23 == 0)) {
v20 = v6 + 1616u;
v9 = v6 + 823u;
v14 = v6 + 871u;
v18 = v6 + 1103u;
v21 = v6 + 616u;
L270:;
v13 = 0u;
SET64(v6, 839, 0u);
SET64(v6, 832, 0u);
SET64(v6, 824, 0u);
SET64(v6, 816, 0u);
SET64(v6, 752, GET64(v22 + (v12 << 3), 0));
in_mm_memory_memory_Memory_asked_about(RUD_AS v6 + 64u, a1, v6 + 752u);
if (AT8(v6, 64) == 1u) {
v24 = AT64(v6, 72);
SET64(v6, 887, 0u);
SET64(v6, 880, 0u);
SET64(v6, 872, 0u);
SET64(v6, 864, 0u);
v8 = AT64(a1, 24);
a3 = AT64(a1, 32);
SET64(v6, 1119, 0u);
SET64(v6, 1112, 0u);
SET64(v6, 1104, 0u);
SET64(v6, 1096, 0u);
v17 = v6 + 1704u;
SET64(v6, 608, v17);
v11 = 0u;
L274:;
SET64(v6, 624, 0u);
SET64(v6, 616, 0u);
v7 = v11 == 0 ? 0ull : v13;
L275:;
a4 = v8;
a3 = 0ull - a3;
L276:;
a3 = a3 + 1u;
if (a3 == 1u) goto L273;
v8 = a4 + 12u;
j0 = a4 + 4u;
a4 = v8;
i0 = in_mm_base_id_StoreIdPartialEq_eq(RUD_AS j0, v24);
if (i0 == 0) goto L276;
v42 = GET32(v8 - 12u, 0);
if (v7 != v11) {
a3 = 0ull - a3;
PUT32(v17 + (v11 << 2), 0, v42);
v11 = v11 + 1u;
goto L275;
}
SET64(v6, 616, v7);
SET64(v6, 624, v13);
if (v7 != v13) goto L279;
i0 = in_std_alloc_vec_Vec_grow_amortized_b59f931699c328fa(RUD_AS v6 + 608u);
RUD_AGAIN
v13 = AT64(v6, 624);
v7 = AT64(v6, 616);
if (i0 | (u32)(v13 != v7)) goto L279;
i0 = in_std_alloc_vec_Vec_grow_amortized_b59f931699c328fa(RUD_AS v6 + 608u);
RUD_AGAIN
if (i0 == 0) goto L278;
v13 = AT64(v6, 624);
v7 = AT64(v6, 616);
L279:;
a3 = 0ull - a3;
v17 = AT64(v6, 608);
PUT32(v17 + (v7 << 2), 0, v42);
v11 = v7 + 1u;
SET64(v6, 616, v11);
goto L274;
L278:;
if (!(AT64(v6, 624) == 0)) {
rud_dealloc(RUD_AS AT64(v6, 608));
RUD_AGAIN
}
in_std_alloc_vec_Vec_drop_c31060acdab8795b(RUD_AS v6 + 552u);
RUD_AGAIN
SET64(v6, 920, 0u);
SET8(v6, 912, 1u);
SET64(v6, 928, 0u);
SET64(v6, 936, 0u);
goto L203;
L273:;
SET64(v6, 1103, AT64(v6, 608));
SET64(v6, 1111, v11);
SET64(v6, 1119, v13);
SET64(v6, 887, AT64(v6, 1119));
SET64(v6, 879, AT64(v6, 1111));
SET64(v6, 871, AT64(v6, 1103));
SET64(v6, 839, AT64(v6, 887));
SET64(v6, 831, AT64(v6, 879));
SET64(v6, 823, AT64(v6, 871));
TEST(v24);
a3 = AT64(v24, 0);
SET64(v6, 800, AT64(v6, 839));
SET64(v6, 792, AT64(v6, 831));
SET64(v6, 784, AT64(v6, 823));
SET64(v6, 1608, a3);
SET64(v6, 1600, a2);
SET64(v6, 1592, 0u);
SET64(v6, 1616, AT64(v6, 784));
SET64(v6, 1624, AT64(v6, 792));
SET64(v6, 1632, AT64(v6, 800));
in_std_alloc_vec_Vec_push_e8aabc6c4a0bee9e(RUD_AS v6 + 1288u, v6 + 552u, v6 + 1592u);
RUD_AGAIN
if (AT8(v6, 1288) == 0) goto L271;
a2 = (u64)AT8(v6, 1296);
a3 = AT64(v6, 1304);
SET64(v6, 1136, AT64(v6, 1336));
SET64(v6, 1128, AT64(v6, 1328));
SET64(v6, 1120, AT64(v6, 1320));
SET64(v6, 1112, AT64(v6, 1312));
SET64(v6, 1104, a3);
SET64(v6, 1096, a2);
in_mm_memory_mm_st15_report_Report_Destruct_drop(RUD_AS v6 + 1096u);
RUD_AGAIN
in_std_alloc_vec_Vec_drop_c31060acdab8795b(RUD_AS v6 + 552u);
RUD_AGAIN
SET64(v6, 920, 0u);
SET8(v6, 912, 1u);
SET64(v6, 928, 0u);
SET64(v6, 936, 0u);
goto L203;
}
SET64(v6, 800, 0u);
SET64(v6, 792, 0u);
SET64(v6, 784, 0u);
L271:;
v12 = v12 + 1u;
if (v12 != v23) goto L270;
}
SET8(v6, 912, 0u);
SET64(v6, 920, AT64(v6, 552));
SET64(v6, 928, AT64(v6, 560));
SET64(v6, 936, AT64(v6, 568));
goto L203;
L267:;
a4 = AT64(v6, 256);
v8 = AT64(v6, 264);
v13 = 0u;
SET64(v6, 1119, 0u);
SET64(v6, 1112, 0u);
SET64(v6, 1104, 0u);
SET64(v6, 1096, 0u);
SET64(v6, 1311, 0u);
SET64(v6, 1304, 0u);
SET64(v6, 1296, 0u);
SET64(v6, 1288, 0u);
SET64(v6, 1600, 0u);
SET64(v6, 1608, 0u);
SET64(v6, 1592, v6 + 1704u);
if (v8 == 0) {
v11 = v6 + 1704u;
v9 = 0u;
goto L282;
}
v12 = v6 + 1600u;
v11 = v6 + 1704u;
v9 = 0u;
L284:;
a3 = 1ull - v8;
L285:;
TEST(a4);
SET64(v6, 864, AT64(a4, 0));
in_mm_memory_memory_Memory_asked_about(RUD_AS v6 + 80u, a1, v6 + 864u);
if (AT8(v6, 80) & 1u) goto L286;
a4 = a4 + 8u;
a3 = a3 + 1u;
if (a3 != 1u) goto L285;
goto L282;
L286:;
v8 = AT64(v6, 88);
TEST(v8);
v18 = AT64(v8, 0);
v8 = v8 + 16u;
v17 = in_mm_store_any_AnyStorePacketStore_oldest(RUD_AS v8);
v20 = in_mm_store_any_AnyStorePacketStore_newest(RUD_AS v8);
TEST(v8);
v42 = GET32(v8 + (AT8(v8, 0) ? 40ull : 24ull), 0);
if (v7 != v9) {
v8 = 0ull - a3;
a4 = a4 + 8u;
v14 = v11 + (v9 << 5);
TEST(v14);
SET32(v14, 28, 0u);
SET32(v14, 24, v42);
SET64(v14, 16, v20);
SET64(v14, 8, v17);
SET64(v14, 0, v18);
v9 = v9 + 1u;
if (!(a3 == 0)) goto L284;
goto L282;
}
SET64(v6, 1592, v11);
SET64(v6, 1600, v7);
SET64(v6, 1608, v13);
if (v7 != v13) goto L288;
i0 = in_std_alloc_vec_Vec_grow_amortized_ca68ededf986fbb3(RUD_AS v6 + 1592u);
RUD_AGAIN
v13 = AT64(v6, 1608);
v7 = AT64(v6, 1600);
if (i0 | (u32)(v13 != v7)) goto L288;
i0 = in_std_alloc_vec_Vec_grow_amortized_ca68ededf986fbb3(RUD_AS v6 + 1592u);
RUD_AGAIN
if (i0 == 0) goto L281;
v13 = AT64(v6, 1608);
v7 = AT64(v6, 1600);
L288:;
v8 = 0ull - a3;
a4 = a4 + 8u;
SET64(v6, 1600, 0u);
SET64(v6, 1608, 0u);
v11 = AT64(v6, 1592);
v9 = v11 + (v7 << 5);
TEST(v9);
SET32(v9, 28, 0u);
SET32(v9, 24, v42);
SET64(v9, 16, v20);
SET64(v9, 8, v17);
SET64(v9, 0, v18);
v9 = v7 + 1u;
v7 = v9 == 0 ? 0ull : v13;
if (!(a3 == 0)) goto L284;
L282:;
SET64(v6, 1111, v9);
SET64(v6, 983, v13);
SET64(v6, 967, v11);
SET64(v6, 975, v9);
SET64(v6, 1496, a2);
SET64(v6, 1488, 1u);
SET64(v6, 1504, v11);
SET64(v6, 1512, v9);
SET64(v6, 1520, v13);
in_mm_memory_reports_one(RUD_AS v6 + 912u, v6 + 1488u);
RUD_AGAIN
goto L203;
L281:;
if (AT64(v6, 1608) == 0) goto L202;
rud_dealloc(RUD_AS AT64(v6, 1592));
RUD_AGAIN
goto L202;
L266:;
v12 = 0u;
SET64(v6, 1119, 0u);
SET64(v6, 1112, 0u);
SET64(v6, 1104, 0u);
SET64(v6, 1096, 0u);
v14 = AT64(a1, 8);
a4 = AT64(a1, 0);
SET64(v6, 1311, 0u);
SET64(v6, 1304, 0u);
SET64(v6, 1296, 0u);
SET64(v6, 1288, 0u);
SET64(v6, 1600, 0u);
SET64(v6, 1608, 0u);
SET64(v6, 1592, v6 + 1704u);
if (v14 == 0) {
v11 = v6 + 1704u;
v8 = 0u;
goto L204;
}
v7 = v6 + 1600u;
v8 = 0u;
v11 = v6 + 1704u;
v13 = 0u;
L290:;
v20 = v8 - v13;
v9 = v8 * 10u;
a3 = 0u;
L292:;
TEST(a4);
v42 = AT8(a4, 128) == 1u;
v43 = AT8(a4, 120);
v18 = AT64(a4, 0);
if ((a3 + v20) == 0) goto L291;
v17 = v9 + v11;
TEST(v17);
SET64(v17, 0, v18);
SET8(v17, 9, v42);
SET8(v17, 8, v43);
a4 = a4 + 192u;
v9 = v9 + 10u;
a3 = a3 + 1u;
if (v14 != a3) goto L292;
v8 = a3 + v8;
goto L204;
L291:;
SET64(v6, 1592, v11);
SET64(v6, 1600, v13);
SET64(v6, 1608, v12);
v8 = v14 - a3;
if (v8 <= (v12 - v13)) goto L294;
i0 = in_std_alloc_vec_Vec_grow_amortized_24b0e7cc841ed643(RUD_AS v6 + 1592u, v8);
RUD_AGAIN
v13 = AT64(v6, 1600);
v12 = AT64(v6, 1608);
if (i0 | (u32)(v13 != v12)) goto L294;
i0 = in_std_alloc_vec_Vec_grow_amortized_24b0e7cc841ed643(RUD_AS v6 + 1592u, 1u);
RUD_AGAIN
if (i0 == 0) goto L293;
v12 = AT64(v6, 1608);
v13 = AT64(v6, 1600);
L294:;
a4 = a4 + 192u;
v9 = v14 - 1u;
v14 = v8 - 1u;
SET64(v6, 1600, 0u);
SET64(v6, 1608, 0u);
v11 = AT64(v6, 1592);
v8 = v11 + (v13 * 10u);
TEST(v8);
SET8(v8, 9, v42);
SET8(v8, 8, v43);
SET64(v8, 0, v18);
v8 = v13 + 1u;
v13 = v8 == 0 ? 0ull : v12;
if (a3 != v9) goto L290;
goto L204;
L293:;
if (AT64(v6, 1608) == 0) goto L202;
rud_dealloc(RUD_AS AT64(v6, 1592));
RUD_AGAIN
goto L202;
L265:;
SET64(v6, 1119, 0u);
SET64(v6, 1112, 0u);
SET64(v6, 1104, 0u);
SET64(v6, 1096, 0u);
v14 = AT64(a1, 8);
a4 = AT64(a1, 0);
SET64(v6, 1311, 0u);
SET64(v6, 1304, 0u);
SET64(v6, 1296, 0u);
SET64(v6, 1288, 0u);
SET64(v6, 1600, 0u);
SET64(v6, 1608, 0u);
SET64(v6, 1592, v6 + 1704u);
if (v14 == 0) {
v11 = v6 + 1704u;
v12 = 0u;
goto L205;
}
v18 = v6 + 1600u;
v12 = 0u;
v11 = v6 + 1704u;
v13 = 0u;
L296:;
v20 = v12 - v13;
v8 = v12 << 4;
v9 = 0u;
L298:;
TEST(a4);
v42 = AT8(a4, 8);
v43 = AT8(a4, 16);
v44 = AT32(a4, 32);
v17 = AT64(a4, 0);
if ((v9 + v20) == 0) goto L297;
a3 = v8 + v11;
TEST(a3);
SET64(a3, 0, v17);
SET16(a3, 14, 0u);
SET8(a3, 13, v42);
SET8(a3, 12, v43);
SET32(a3, 8, v44);
a4 = a4 + 192u;
v8 = v8 + 16u;
v9 = v9 + 1u;
if (v14 != v9) goto L298;
v12 = v9 + v12;
goto L205;
L297:;
SET64(v6, 1592, v11);
SET64(v6, 1600, v13);
SET64(v6, 1608, v7);
a3 = v14 - v9;
if (a3 <= (v7 - v13)) goto L300;
i0 = in_std_alloc_vec_Vec_grow_amortized_a29bcaab257478eb(RUD_AS v6 + 1592u, a3);
RUD_AGAIN
v7 = AT64(v6, 1608);
v13 = AT64(v6, 1600);
if (i0 | (u32)(v7 != v13)) goto L300;
i0 = in_std_alloc_vec_Vec_grow_amortized_a29bcaab257478eb(RUD_AS v6 + 1592u, 1u);
RUD_AGAIN
if (i0 == 0) goto L299;
v7 = AT64(v6, 1608);
v13 = AT64(v6, 1600);
L300:;
a4 = a4 + 192u;
j0 = v14 - 1u;
v14 = a3 - 1u;
SET64(v6, 1600, 0u);
SET64(v6, 1608, 0u);
v11 = AT64(v6, 1592);
a3 = v11 + (v13 << 4);
TEST(a3);
SET16(a3, 14, 0u);
SET8(a3, 13, v42);
SET8(a3, 12, v43);
SET32(a3, 8, v44);
SET64(a3, 0, v17);
v12 = v13 + 1u;
v13 = v12 == 0 ? 0ull : v7;
if (j0 != v9) goto L296;
goto L205;
L299:;
if (AT64(v6, 1608) == 0) goto L202;
rud_dealloc(RUD_AS AT64(v6, 1592));
RUD_AGAIN
goto L202;
L207:;
if (v16 == 0) goto L201;
rud_dealloc(RUD_AS v15);
RUD_AGAIN
goto L201;
L206:;
SET64(v6, 463, 0u);
SET64(v6, 471, 0u);
SET64(v6, 455, v6 + 1704u);
goto L200;
L205:;
SET64(v6, 1111, v12);
SET64(v6, 663, v7);
SET64(v6, 647, v11);
SET64(v6, 655, v12);
SET64(v6, 1008, a2);
SET64(v6, 1000, 3u);
SET64(v6, 1016, v11);
SET64(v6, 1024, v12);
SET64(v6, 1032, v7);
in_mm_memory_reports_one(RUD_AS v6 + 912u, v6 + 1000u);
RUD_AGAIN
goto L203;
L204:;
SET64(v6, 1111, v8);
SET64(v6, 743, v12);
SET64(v6, 727, v11);
SET64(v6, 735, v8);
SET64(v6, 1056, a2);
SET64(v6, 1048, 2u);
SET64(v6, 1064, v11);
SET64(v6, 1072, v8);
SET64(v6, 1080, v12);
in_mm_memory_reports_one(RUD_AS v6 + 912u, v6 + 1048u);
RUD_AGAIN
L203:;
SET64(v6, 455, AT64(v6, 920));
SET64(v6, 463, AT64(v6, 928));
SET64(v6, 471, AT64(v6, 936));
if (AT8(v6, 912) == 0) goto L200;
L202:;
if (!(v10 == 0)) {
rud_dealloc(RUD_AS v19);
RUD_AGAIN
}
if (!(v16 == 0)) {
rud_dealloc(RUD_AS v15);
RUD_AGAIN
}
a4 = AT64(v6, 240);
L201:;
in_std_alloc_arc_Arc_drop_c3b6ee2ab0dfb523(RUD_AS a4);
RUD_AGAIN
a1 = AT64(v6, 272);
a2 = AT64(v6, 256);
switch ((u32)(u64)AT8(v6, 248) - 1u) {
case 0u: goto L5;
case 1u: goto L6;
case 2u: goto L7;
case 3u: goto L8;
case 4u: goto L9;
case 5u: goto L10;
case 6u: goto L11;
case 7u: goto L12;
case 8u: case 11u: goto L2;
case 9u: goto L13;
case 10u: goto L14;
case 12u: goto L15;
case 13u: goto L16;
case 14u: goto L17;
case 15u: goto L18;
default: goto L4;
}
L200:;
SET64(v6, 496, AT64(v6, 471));
SET64(v6, 488, AT64(v6, 463));
SET64(v6, 480, AT64(v6, 455));
a4 = 0u;
if (v45 == 0) {
v18 = a1 + 32u;
v25 = a1 + 24u;
v26 = a1 + 8u;
v38 = v6 + 1544u;
v20 = v6 + 1296u;
v27 = v6 + 1304u;
v39 = v6 + 1104u;
v23 = v6 + 1320u;
v34 = v6 + 1272u;
v40 = v6 + 1160u;
v35 = v6 + 1105u;
v36 = v6 + 1120u;
v41 = v6 + 1648u;
v37 = v6 + 1608u;
a2 = 0u;
L304:;
a4 = v15 + (a2 * 48u);
TEST(a4);
if (AT8(a4, 0) == 0) {
a3 = AT64(a1, 0);
v8 = AT64(a1, 8);
v12 = a4 + 8u;
in_mm_desk_holding_place_of(RUD_AS v6 + 48u, a3, v8, v12);
v43 = 1u;
v42 = AT8(a4, 16);
if (AT8(v6, 48) == 1u) {
v7 = AT64(v6, 56);
v44 = 4u;
switch (v42 - 1u) {
case 0u: goto L318;
case 1u: goto L317;
case 2u: goto L315;
case 3u: goto L316;
default: goto L305;
}
L318:;
v44 = 7u;
a4 = a3 + (v7 * 192u);
TEST(a4);
if (AT8(a4, 120)) goto L306;
if (AT8(a4, 128) == 1u) goto L307;
v13 = 0u;
SET64(a1, 8, 0u);
v9 = a1 + 16u;
v17 = AT64(a1, 16);
SET64(a1, 16, 0u);
v11 = 0u;
if (v8 == 0) goto L319;
a4 = a3 + 192u;
v7 = v8 - 1u;
v14 = a3;
L321:;
i0 = in_mm_base_id_StoreIdPartialEq_eq(RUD_AS v14, v12);
if (i0) goto L320;
a4 = a4 + 192u;
v7 = v7 - 1u;
v14 = v14 + 192u;
v11 = v11 + 1u;
if (v8 != v11) goto L321;
v11 = v8;
goto L319;
L320:;
v21 = v6 + 1288u;
COPY_FEW(v21, v14, 192u);
in_mm_memory_mm_desk_held_Held_Destruct_drop(RUD_AS v21);
RUD_AGAIN
if ((v11 + 1u) >= v8) goto L319;
L322:;
v42 = in_mm_base_id_StoreIdPartialEq_eq(RUD_AS a4, v12);
v8 = a3 + (v11 * 192u);
COPY_FEW(v8, a4, 192u);
if (v42 == 0) {
v11 = v11 + 1u;
goto L323;
}
v14 = v6 + 1288u;
COPY_FEW(v14, v8, 192u);
in_mm_memory_mm_desk_held_Held_Destruct_drop(RUD_AS v14);
RUD_AGAIN
L323:;
a4 = a4 + 192u;
v7 = v7 - 1u;
if (v7 != 0u) goto L322;
L319:;
SET64(a1, 0, a3);
SET64(a1, 16, v17);
SET64(a1, 8, v11);
v11 = a1 + 40u;
v14 = AT64(a1, 40);
v17 = a1 + 32u;
a3 = AT64(a1, 32);
SET64(a1, 40, 0u);
SET64(a1, 32, 0u);
v21 = a1 + 24u;
v7 = AT64(a1, 24);
if (a3 == 0) goto L325;
a4 = v7 + 12u;
v9 = a3 - 1u;
v8 = v7 - 8u;
L326:;
v8 = v8 + 12u;
i0 = in_mm_base_id_StoreIdPartialEq_eq(RUD_AS v8, v12);
if (i0) {
if ((v13 + 1u) >= a3) goto L325;
L328:;
v42 = in_mm_base_id_StoreIdPartialEq_eq(RUD_AS a4 + 4u, v12);
TEST(a4);
a3 = AT64(a4, 0);
v8 = v7 + (v13 * 12u);
TEST(v8);
SET32(v8, 8, AT32(a4, 8));
SET64(v8, 0, a3);
a4 = a4 + 12u;
v13 = v13 + (u64)(v42 ^ 1u);
v9 = v9 - 1u;
if (v9 != 0u) goto L328;
goto L325;
}
a4 = a4 + 12u;
v9 = v9 - 1u;
v13 = v13 + 1u;
if (a3 != v13) goto L326;
v13 = a3;
L325:;
SET64(a1, 40, v14);
SET64(a1, 32, v13);
SET64(a1, 24, v7);
goto L315;
L317:;
v45 = AT8(a4, 17);
v42 = AT16(a4, 18);
v43 = AT8(a4, 20);
v44 = AT8(a4, 21);
a3 = AT64(a4, 8);
SET64(v6, 1100, a3);
SET8(v6, 1099, v44);
SET8(v6, 1098, v43);
SET16(v6, 1096, v42);
if (v45 == 0) {
in_mm_control_table_ControlTable_add(RUD_AS v6, v25, v6 + 1096u);
RUD_AGAIN
if (AT8(v6, 0) == 0) goto L329;
i0 = AT8(v6, 1);
goto L331;
}
SET64(v6, 1292, a3);
SET8(v6, 1291, v44);
SET8(v6, 1290, v43);
SET16(v6, 1288, v42);
v8 = AT64(a1, 24);
v11 = AT64(a1, 32);
in_mm_control_table_place_of(RUD_AS v6 + 8u, v8, v11, v6 + 1288u);
if (AT8(v6, 8) == 0) goto L330;
i0 = 0u;
L331:;
v42 = i0;
v44 = 8u;
goto L312;
L330:;
a4 = AT64(v6, 16);
SET64(a1, 32, 0u);
v14 = AT64(a1, 40);
SET64(a1, 40, 0u);
v13 = v11 - 1u;
a3 = v13 - a4;
if (a4 != 0xffffffffffffffffull) {
if (!(a3 < 171u)) {
v9 = v8 + (a4 * 12u);
L337:;
v7 = a4;
if (v7 != 0xffffffffffffffffull) {
a3 = 0u;
L340:;
a4 = a3 + v9;
TEST(a4);
SET32(a4, 8, AT32(a4, 20));
SET64(a4, 0, AT64(a4, 12));
a3 = a3 + 12u;
if (a3 != 2040u) goto L340;
goto L338;
}
a3 = 0u;
L341:;
a4 = a3 + v9;
PUT32(a4 + 2036u, 0, GET32(a4 + 2048u, 0));
PUT64(a4 + 2028u, 0, GET64(a4 + 2040u, 0));
a3 = a3 - 12u;
if (a3 != 0xfffffffffffff808ull) goto L341;
L338:;
v9 = v9 + 2040u;
a4 = v7 + 170u;
a3 = v13 - a4;
if (a3 > 170u) goto L337;
if (a4 == 0xffffffffffffffffull) goto L335;
}
if (a4 == v13) goto L334;
a3 = a3 * 12u;
if (a3 == 0) goto L334;
a4 = (a4 * 12u) + v8;
COPY(a4, a4 + 12u, a3);
goto L334;
L335:;
if (v11 == 0) goto L334;
a3 = v11 - 171u;
a4 = (v8 + (v11 * 12u)) - 24u;
L342:;
TEST(a4);
SET32(a4, 8, AT32(a4, 20));
SET64(a4, 0, AT64(a4, 12));
a4 = a4 - 12u;
a3 = a3 - 1u;
if (v7 != a3) goto L342;
L334:;
SET64(a1, 40, v14);
SET64(a1, 32, v13);
SET64(a1, 24, v8);
goto L329;
}
if (!(v11 == 0)) {
v7 = a4 * 0xfffffffffffffff4ull;
a4 = (v8 + (v11 * 12u)) - 24u;
L344:;
v11 = a4 + v7;
TEST(v11);
v9 = AT64(v11, 0);
TEST(a4);
SET32(a4, 8, AT32(v11, 8));
SET64(a4, 0, v9);
a4 = a4 - 12u;
a3 = a3 - 1u;
if (a3 != 0u) goto L344;
}
SET64(a1, 40, v14);
SET64(a1, 32, v13);
SET64(a1, 24, v8);
L329:;
v43 = 0u;
v44 = 0u;
v42 = 0u;
goto L305;
L316:;
v12 = a3 + (v7 * 192u);
switch ((u32)(u64)AT8(a4, 24) - 1u) {
case 0u: goto L351;
case 1u: goto L350;
case 2u: goto L349;
case 3u: goto L348;
case 4u: goto L347;
case 5u: goto L346;
case 6u: goto L345;
default: goto L352;
}
L352:;
TEST(v12);
SET8(v12, 120, 1u);
goto L315;
L351:;
TEST(v12);
SET8(v12, 120, 0u);
goto L315;
L350:;
v44 = 7u;
TEST(v12);
if (AT8(v12, 128) == 1u) goto L307;
a3 = AT64(a4, 40);
a4 = AT64(a4, 32);
if (a3 < a4) {
v42 = 4u;
goto L305;
}
SET64(v12, 152, 0u);
SET64(v12, 144, a3);
SET64(v12, 136, a4);
SET64(v12, 128, 1u);
SET64(v12, 160, 0u);
goto L315;
L349:;
TEST(v12);
SET64(v12, 136, 0u);
SET64(v12, 144, 0u);
SET64(v12, 152, 0u);
a3 = v12 + 128u;
i0 = AT8(v12, 128);
SET64(v12, 128, 0u);
if (i0 == 1u) goto L315;
v44 = 7u;
v42 = 3u;
goto L305;
L348:;
TEST(v12);
if (AT8(v12, 128) == 1u) {
v44 = 7u;
goto L307;
}
v8 = AT64(a4, 32);
v11 = v12 + 24u;
if (AT8(v12, 16) == 0) {
a3 = AT64(v12, 40);
if (a3 == 0) {
a4 = 0u;
goto L357;
}
a4 = a3;
v7 = AT64(v12, 48);
v9 = AT64(v12, 32);
if (GET64(AT64(v12, 24) + ((v7 - (v7 < v9 ? 0ull : v9)) * 40u), 0) > v8) goto L357;
L359:;
a4 = v6 + 1288u;
FILL_FEW(a4, 0u, 48u);
in_circular_buffer_heap_HeapCircularBuffer_pop_front_b37a56fa4dba49(RUD_AS a4, v11);
if (AT8(v6, 1288) != 1u) goto L19;
in_std_alloc_arc_Arc_drop_c3b6ee2ab0dfb523(RUD_AS AT64(v6, 1328));
RUD_AGAIN
a4 = 0u;
v7 = AT64(v12, 40);
if (v7 == 0) goto L357;
a4 = v7;
v7 = AT64(v12, 48);
v9 = AT64(v12, 32);
if (GET64(AT64(v12, 24) + ((v7 - (v7 < v9 ? 0ull : v9)) * 40u), 0) <= v8) goto L359;
L357:;
j0 = a3 - a4;
goto L355;
}
a3 = AT64(v12, 56);
if (a3 == 0) {
v9 = 0u;
goto L360;
}
v7 = v12 + 48u;
a4 = a3;
L362:;
v9 = AT64(v12, 48);
j0 = AT64(v12, 24);
if (AT64(v12, 80) != a4) {
j1 = v9 + (AT64(v12, 72) << 2);
} else {
j1 = v9;
}
TEST(j1);
v13 = j0 + ((u64)AT32(j1, 0) * 48u);
TEST(v13);
if ((AT8(v13, 0) & 1u) == 0) goto L19;
v9 = a4;
if (AT64(v13, 8) > v8) goto L360;
in_std_alloc_vec_deque_VecDeque_pop_front_384c51600a7917bd(RUD_AS v6 + 24u, v7);
if ((AT8(v6, 24) & 1u) == 0) goto L19;
a4 = v12 + 96u;
v9 = AT64(v12, 96);
v42 = AT32(v6, 28);
PUT32(AT64(v12, 88) + (v9 << 2), 0, v42);
SET64(v12, 96, v9 + 1u);
a4 = AT64(v12, 24) + ((u64)v42 * 48u);
TEST(a4);
j0 = AT64(a4, 40);
i1 = AT8(a4, 0);
FILL_FEW(a4, 0u, 48u);
if (i1 != 1u) goto L19;
in_std_alloc_arc_Arc_drop_c3b6ee2ab0dfb523(RUD_AS j0);
RUD_AGAIN
v9 = 0u;
a4 = AT64(v12, 56);
if (a4 != 0u) goto L362;
L360:;
j0 = a3 - v9;
L355:;
a3 = j0;
a4 = v12 + 184u;
SET64(v12, 184, AT64(v12, 184) + (a3 & 4294967295u));
goto L315;
L347:;
v44 = 7u;
TEST(v12);
if (AT8(v12, 120)) goto L306;
if (AT8(v12, 128) == 1u) goto L307;
v42 = AT32(a4, 28);
a3 = v12 + 24u;
if (AT8(v12, 16) == 0) {
v44 = 1u;
v45 = v42 < AT32(v12, 40);
if (v45) goto L364;
a4 = v6 + 1096u;
FILL_FEW(a4, 0u, 40u);
in_mm_store_ring_HeapCircularBufferStoredPacketQueue_with_room(RUD_AS a4, v42);
RUD_AGAIN
if (AT8(v6, 1096)) goto L364;
v11 = AT64(v6, 1128);
v9 = AT64(v6, 1120);
a4 = AT64(v6, 1112);
v13 = AT64(v6, 1104);
v17 = v12 + 40u;
if (!(AT64(v12, 40) == 0)) {
v21 = a4 < v9 ? v9 : a4;
v8 = v13 + ((v9 + v11) * 40u);
L367:;
v7 = v6 + 1288u;
FILL_FEW(v7, 0u, 48u);
in_circular_buffer_heap_HeapCircularBuffer_pop_front_b37a56fa4dba49(RUD_AS v7, a3);
if (AT8(v6, 1288) != 1u) goto L19;
SET64(v6, 1616, AT64(v6, 1320));
SET64(v6, 1608, AT64(v6, 1312));
SET64(v6, 1600, AT64(v6, 1304));
SET64(v6, 1592, AT64(v6, 1296));
v14 = AT64(v6, 1328);
if (v9 == v21) goto L311;
v7 = v8 + (((v9 + v11) < a4 ? 0ull : a4) * 0xffffffffffffffd8ull);
TEST(v7);
SET64(v7, 24, AT64(v6, 1616));
SET64(v7, 16, AT64(v6, 1608));
SET64(v7, 8, AT64(v6, 1600));
SET64(v7, 0, AT64(v6, 1592));
SET64(v7, 32, v14);
v8 = v8 + 40u;
v9 = v9 + 1u;
if (AT64(v12, 40) != 0u) goto L367;
}
v7 = AT64(v12, 48);
SET64(v12, 48, v11);
v8 = AT64(v12, 40);
SET64(v12, 40, v9);
v11 = AT64(v12, 32);
SET64(v12, 32, a4);
a3 = AT64(v12, 24);
SET64(v12, 24, v13);
SET64(v6, 1288, a3);
SET64(v6, 1296, v11);
SET64(v6, 1304, v8);
SET64(v6, 1312, v7);
in_circular_buffer_heap_HeapCircularBuffer_drop_e7afb5b3a14eae53(RUD_AS v6 + 1288u);
RUD_AGAIN
v44 = 0u;
goto L364;
}
v44 = 1u;
v45 = v42 < AT32(v12, 56);
if (v45) goto L364;
a4 = v6 + 1288u;
FILL_FEW(a4, 0u, 96u);
in_mm_store_table_BlockTablePacketQueue_with_room(RUD_AS a4, v42);
RUD_AGAIN
if (AT8(v6, 1288)) goto L364;
v31 = AT64(v6, 1376);
v9 = AT64(v6, 1368);
v21 = AT64(v6, 1360);
v13 = AT64(v6, 1352);
a4 = AT64(v6, 1344);
v24 = AT64(v6, 1336);
v8 = AT64(v6, 1328);
v7 = AT64(v6, 1320);
v22 = AT64(v6, 1296);
v28 = v12 + 56u;
if (!(AT64(v12, 56) == 0)) {
v29 = v24 - a4;
v32 = v12 + 48u;
v14 = v7 + ((a4 + v8) << 2);
v11 = (v21 + (v9 << 2)) - 4u;
L369:;
in_std_alloc_vec_deque_VecDeque_pop_front_384c51600a7917bd(RUD_AS v6 + 32u, v32);
if ((AT8(v6, 32) & 1u) == 0) goto L19;
v17 = v12 + 96u;
v33 = AT64(v12, 96);
v42 = AT32(v6, 36);
PUT32(AT64(v12, 88) + (v33 << 2), 0, v42);
SET64(v12, 96, v33 + 1u);
v17 = AT64(v12, 24) + ((u64)v42 * 48u);
TEST(v17);
i0 = AT8(v17, 0);
COPY_FEW(v6 + 1096u, v17 + 8u, 40u);
FILL_FEW(v17, 0u, 48u);
if (i0 != 1u) goto L19;
COPY_FEW(v6 + 1592u, v6 + 1096u, 40u);
if (v9 == 0) goto L19;
TEST(v11);
v42 = AT32(v11, 0);
v17 = v22 + ((u64)v42 * 48u);
TEST(v17);
i0 = AT8(v17, 0);
SET64(v17, 0, 1u);
v33 = AT64(v17, 40);
COPY_FEW(v17 + 8u, v6 + 1592u, 40u);
if (i0 == 1u) {
in_std_alloc_arc_Arc_drop_c3b6ee2ab0dfb523(RUD_AS v33);
RUD_AGAIN
}
if (v29 > (v8 - v13)) {
PUT32(v14 - (v13 << 2), 0, v42);
goto L371;
}
PUT32(v7 + (v13 << 2), 0, v42);
v13 = v13 + 1u;
L371:;
v9 = v9 - 1u;
v14 = v14 + 4u;
v11 = v11 - 4u;
v8 = v8 + 1u;
if (AT64(v12, 56) != 0u) goto L369;
}
SET64(v6, 1096, AT64(v6, 1304));
SET64(v6, 1104, AT64(v6, 1312));
v11 = AT64(v12, 40);
v14 = AT64(v12, 32);
a3 = AT64(v12, 24);
SET64(v12, 24, v22);
SET64(v12, 96, v9);
SET64(v12, 80, v13);
SET64(v12, 72, a4);
SET64(v12, 56, v8);
a4 = v12 + 48u;
v8 = AT64(v12, 48);
SET64(v12, 48, v7);
a4 = v12 + 64u;
j0 = AT64(v12, 64);
SET64(v12, 64, v24);
a4 = v12 + 88u;
v9 = AT64(v12, 88);
SET64(v12, 88, v21);
a4 = v12 + 104u;
v13 = AT64(v12, 104);
SET64(v12, 104, v31);
SET64(v6, 1288, a3);
SET64(v6, 1296, v14);
SET64(v6, 1304, v11);
SET64(v12, 32, AT64(v6, 1096));
SET64(v12, 40, AT64(v6, 1104));
in_std_alloc_vec_Vec_drop_eb57a1c6c018074a(RUD_AS v6 + 1288u);
RUD_AGAIN
if (!(j0 == 0)) {
rud_dealloc(RUD_AS v8);
RUD_AGAIN
}
v44 = 0u;
if (v13 == 0) goto L364;
rud_dealloc(RUD_AS v9);
RUD_AGAIN
L364:;
if (v44 == 0) goto L315;
v42 = v45 ? 7u : 0u;
v44 = v42;
goto L305;
L346:;
v44 = 7u;
TEST(v12);
if (AT8(v12, 120)) goto L306;
if (AT8(v12, 128) == 1u) goto L307;
i0 = AT8(a4, 25);
SET64(v6, 1512, 0u);
SET64(v6, 1504, 0u);
SET64(v6, 1496, 0u);
SET64(v6, 1488, 0u);
v44 = AT8(v12, 16);
if (i0 == v44) goto L315;
a4 = v12 + 24u;
v42 = AT32(v12, 32);
if (v44 == 0) {
a3 = v6 + 1288u;
FILL_FEW(a3, 0u, 96u);
in_mm_store_table_BlockTablePacketQueue_with_room(RUD_AS a3, v42);
RUD_AGAIN
if (AT8(v6, 1288)) goto L309;
v31 = AT64(v6, 1376);
v8 = AT64(v6, 1368);
v17 = AT64(v6, 1360);
v14 = AT64(v6, 1352);
a3 = AT64(v6, 1344);
v24 = AT64(v6, 1336);
v11 = AT64(v6, 1328);
v7 = AT64(v6, 1320);
v21 = AT64(v6, 1296);
if (!(AT64(v12, 40) == 0)) {
v28 = v24 - a3;
v13 = v7 + ((a3 + v11) << 2);
v9 = (v17 + (v8 << 2)) - 4u;
L377:;
v22 = v6 + 1096u;
FILL_FEW(v22, 0u, 48u);
in_circular_buffer_heap_HeapCircularBuffer_pop_front_b37a56fa4dba49(RUD_AS v22, a4);
if (AT8(v6, 1096) != 1u) goto L19;
COPY_FEW(v6 + 1592u, v39, 40u);
if (v8 == 0) goto L19;
TEST(v9);
v42 = AT32(v9, 0);
v22 = v21 + ((u64)v42 * 48u);
TEST(v22);
i0 = AT8(v22, 0);
SET64(v22, 0, 1u);
v29 = AT64(v22, 40);
COPY_FEW(v22 + 8u, v6 + 1592u, 40u);
if (i0 == 1u) {
in_std_alloc_arc_Arc_drop_c3b6ee2ab0dfb523(RUD_AS v29);
RUD_AGAIN
}
if (v28 > (v11 - v14)) {
PUT32(v13 - (v14 << 2), 0, v42);
goto L379;
}
PUT32(v7 + (v14 << 2), 0, v42);
v14 = v14 + 1u;
L379:;
v8 = v8 - 1u;
v13 = v13 + 4u;
v9 = v9 - 4u;
v11 = v11 + 1u;
if (AT64(v12, 40) != 0u) goto L377;
}
v13 = AT64(v6, 1304);
v9 = AT64(v6, 1312);
v22 = 1u;
j0 = AT64(v12, 56);
goto L374;
}
a3 = v6 + 1288u;
FILL_FEW(a3, 0u, 40u);
in_mm_store_ring_HeapCircularBufferStoredPacketQueue_with_room(RUD_AS a3, v42);
RUD_AGAIN
if (AT8(v6, 1288)) goto L309;
v7 = AT64(v6, 1320);
v9 = AT64(v6, 1312);
v13 = AT64(v6, 1304);
v21 = AT64(v6, 1296);
if (!(AT64(v12, 56) == 0)) {
v14 = v9 > v13 ? v9 : v13;
v17 = v12 + 48u;
v8 = v21 + ((v7 + v9) * 40u);
L382:;
in_std_alloc_vec_deque_VecDeque_pop_front_384c51600a7917bd(RUD_AS v6 + 40u, v17);
if ((AT8(v6, 40) & 1u) == 0) goto L19;
a3 = v12 + 96u;
v11 = AT64(v12, 96);
v42 = AT32(v6, 44);
PUT32(AT64(v12, 88) + (v11 << 2), 0, v42);
SET64(v12, 96, v11 + 1u);
a3 = AT64(v12, 24) + ((u64)v42 * 48u);
TEST(a3);
SET64(v6, 1096, AT64(a3, 8));
SET64(v6, 1104, AT64(a3, 16));
SET64(v6, 1112, AT64(a3, 24));
SET64(v6, 1120, AT64(a3, 32));
v11 = AT64(a3, 40);
i0 = AT8(a3, 0);
FILL_FEW(a3, 0u, 48u);
if (i0 != 1u) goto L19;
SET64(v6, 1616, AT64(v6, 1120));
SET64(v6, 1608, AT64(v6, 1112));
SET64(v6, 1600, AT64(v6, 1104));
SET64(v6, 1592, AT64(v6, 1096));
if (v9 == v14) goto L310;
a3 = v8 + (((v7 + v9) < v13 ? 0ull : v13) * 0xffffffffffffffd8ull);
TEST(a3);
SET64(a3, 24, AT64(v6, 1616));
SET64(a3, 16, AT64(v6, 1608));
SET64(a3, 8, AT64(v6, 1600));
SET64(a3, 0, AT64(v6, 1592));
SET64(a3, 32, v11);
v8 = v8 + 40u;
v9 = v9 + 1u;
if (AT64(v12, 56) != 0u) goto L382;
}
v11 = AT64(v12, 112);
v14 = 0u;
v24 = 0u;
a3 = 0u;
v17 = 0u;
v8 = 0u;
v31 = 0u;
v22 = 0u;
j0 = 0u;
L374:;
v28 = j0;
v29 = AT64(v12, 40);
v32 = AT64(v12, 32);
a4 = AT64(v12, 24);
SET64(v12, 24, v21);
SET64(v12, 32, v13);
SET64(v12, 40, v9);
SET64(v12, 112, v28);
SET64(v12, 96, v8);
SET64(v12, 80, v14);
SET64(v12, 72, a3);
SET64(v12, 56, v11);
v8 = v12 + 48u;
a3 = AT64(v12, 48);
SET64(v12, 48, v7);
v7 = v12 + 64u;
j0 = AT64(v12, 64);
SET64(v12, 64, v24);
v7 = v12 + 88u;
v11 = AT64(v12, 88);
SET64(v12, 88, v17);
v7 = v12 + 104u;
v9 = AT64(v12, 104);
SET64(v12, 104, v31);
v7 = v12 + 16u;
i1 = AT8(v12, 16);
SET64(v12, 16, v22);
SET64(v6, 1048, a4);
SET64(v6, 1056, v32);
SET64(v6, 1064, v29);
if (i1 == 0) {
SET64(v6, 1504, AT64(v6, 1064));
SET64(v6, 1496, AT64(v6, 1056));
SET64(v6, 1488, AT64(v6, 1048));
SET64(v6, 1512, a3);
in_circular_buffer_heap_HeapCircularBuffer_drop_e7afb5b3a14eae53(RUD_AS v6 + 1488u);
RUD_AGAIN
goto L315;
}
in_std_alloc_vec_Vec_drop_eb57a1c6c018074a(RUD_AS v6 + 1048u);
RUD_AGAIN
if (!(j0 == 0)) {
rud_dealloc(RUD_AS a3);
RUD_AGAIN
}
if (v9 == 0) goto L315;
rud_dealloc(RUD_AS v11);
RUD_AGAIN
goto L315;
L345:;
v44 = 7u;
TEST(v12);
if (AT8(v12, 120)) goto L306;
if (AT8(v12, 128) == 1u) goto L307;
SET8(v12, 8, AT8(a4, 25));
L315:;
v42 = 0u;
v44 = 0u;
v43 = 0u;
goto L305;
}
if (v42) {
v44 = 3u;
v42 = 0u;
goto L305;
}
v11 = AT64(a4, 8);
v42 = 0u;
FILL_FEW(v6 + 1288u, 0u, 200u);
SET64(v6, 1072, 0u);
SET64(v6, 1064, 0u);
SET64(v6, 1056, 0u);
SET64(v6, 1048, 0u);
v44 = 5u;
if (v8 > 15u) goto L305;
a3 = v6 + 1592u;
FILL_FEW(a3, 0u, 112u);
in_mm_store_any_AnyStore_new(RUD_AS a3, AT8(a4, 24), AT32(a4, 20));
RUD_AGAIN
if (AT8(v6, 1592)) goto L308;
SET64(v6, 1120, AT64(v6, 1608));
SET64(v6, 1128, AT64(v6, 1616));
v43 = AT8(a4, 25);
a3 = (u64)AT8(v6, 1600);
a4 = AT64(v6, 1624);
v8 = AT64(v6, 1632);
v7 = AT64(v6, 1640);
v9 = v6 + 1488u;
COPY_FEW(v9, v41, 56u);
v44 = 0u;
FILL_FEW(v38, 0u, 48u);
SET32(v6, 1105, 0u);
SET32(v6, 1108, 0u);
SET8(v6, 1104, v43);
SET64(v6, 1096, v11);
SET64(v6, 1152, v7);
SET64(v6, 1144, v8);
SET64(v6, 1136, a4);
SET64(v6, 1112, a3);
COPY_FEW(v40, v9, 104u);
SET64(v6, 1272, 0u);
SET64(v6, 1280, 0u);
SET64(v6, 1264, (a3 == 0 ? a4 : v7) & 4294967295u);
in_std_alloc_vec_Vec_push_1546441aeb499ef3(RUD_AS v6 + 1288u, a1, v6 + 1096u);
RUD_AGAIN
v43 = AT8(v6, 1288);
if (v43 != 1u) goto L305;
a3 = AT64(v6, 1344);
if (AT8(v6, 1312) == 0) {
SET64(v6, 1072, a3);
SET64(v6, 1064, AT64(v6, 1336));
SET64(v6, 1056, AT64(v6, 1328));
SET64(v6, 1048, AT64(v6, 1320));
in_circular_buffer_heap_HeapCircularBuffer_drop_e7afb5b3a14eae53(RUD_AS v6 + 1048u);
RUD_AGAIN
goto L312;
}
v7 = AT64(v6, 1384);
j0 = AT64(v6, 1400);
j1 = AT64(v6, 1360);
in_std_alloc_vec_Vec_drop_eb57a1c6c018074a(RUD_AS v23);
RUD_AGAIN
if (!(j1 == 0)) {
rud_dealloc(RUD_AS a3);
RUD_AGAIN
}
v43 = 1u;
if (j0 == 0) goto L305;
rud_dealloc(RUD_AS v7);
RUD_AGAIN
goto L305;
}
v42 = AT8(a4, 2);
v44 = AT8(a4, 1);
L312:;
v43 = 1u;
goto L305;
L311:;
in_std_alloc_arc_Arc_drop_c3b6ee2ab0dfb523(RUD_AS v14);
RUD_AGAIN
rud_trap();
L310:;
in_std_alloc_arc_Arc_drop_c3b6ee2ab0dfb523(RUD_AS v11);
RUD_AGAIN
rud_trap();
L309:;
v42 = 0u;
L308:;
v44 = 0u;
goto L305;
L307:;
v42 = 2u;
goto L305;
L306:;
v42 = 6u;
L305:;
a3 = v19 + (a2 * 3u);
TEST(a3);
SET8(a3, 0, v43);
SET8(a3, 2, v43 ? v42 : 0u);
SET8(a3, 1, v43 ? v44 : 0u);
a2 = a2 + 1u;
if (a2 != v10) goto L304;
a4 = v10;
}
if (!(v16 == 0)) {
rud_dealloc(RUD_AS v15);
RUD_AGAIN
}
SET64(v6, 152, AT64(v6, 496));
SET64(v6, 144, AT64(v6, 488));
SET64(v6, 136, AT64(v6, 480));
a2 = v19;
a3 = a4;
if ((s64)RUD_G0 >= (s64)16u) {
if (!(a3 == 0)) {
L392:;
TEST(a2);
if (AT8(a2, 0) == 0) {
v42 = 255u;
goto L393;
}
v43 = AT8(a2, 2);
v42 = AT8(a2, 1);
switch ((u32)((u64)v42 & 255u) - 1u) {
case 0u: goto L402;
case 1u: goto L401;
case 2u: goto L400;
case 3u: goto L399;
case 4u: goto L398;
case 5u: goto L397;
case 6u: goto L395;
case 7u: goto L396;
default: goto L393;
}
L402:;
v42 = 15u;
goto L393;
L401:;
v42 = 16u;
goto L393;
L400:;
v42 = 23u;
goto L393;
L399:;
v42 = 24u;
goto L393;
L398:;
v42 = 25u;
goto L393;
L397:;
v42 = 48u;
goto L393;
L396:;
v42 = v43 ? 11u : 10u;
goto L393;
L395:;
v42 = (u32)(655859871699308800ull >> ((((u64)v43 & 255u) << 3) & 63));
L393:;
TEST(a5);
SET8(a5, 0, v42);
a2 = a2 + 3u;
a5 = a5 + 1u;
a3 = a3 - 1u;
if (a3 != 0u) goto L392;
}
goto L389;
}
rud_trap();
L389:;
v8 = a1 + 48u;
a2 = v30;
v11 = v6 + 216u;
a1 = v6 + 136u;
a5 = RUD_G0 - 32u;
RUD_G0 = a5;
if ((s64)a5 < (s64)16u) goto L404;
a3 = AT64(v6, 136);
v9 = AT64(v6, 144);
j0 = AT64(v6, 152);
if (!(v9 == 0)) {
a1 = a3;
L406:;
TEST(a1);
v14 = AT64(a1, 8);
v13 = (u64)AT8(a1, 0);
TEST(a5);
SET64(a5, 24, AT64(a1, 40));
SET64(a5, 16, AT64(a1, 32));
SET64(a5, 8, AT64(a1, 24));
SET64(a5, 0, AT64(a1, 16));
switch ((u32)v13 - 1u) {
case 0u: goto L410;
case 1u: goto L409;
case 2u: goto L408;
default: goto L411;
}
L411:;
v7 = v8 + 2u;
TEST(v7);
v42 = AT16(v7, 0);
SET16(v7, 0, v42 + 1u);
goto L407;
L410:;
v7 = v8 + 4u;
TEST(v7);
v42 = AT16(v7, 0);
SET16(v7, 0, v42 + 1u);
goto L407;
L409:;
v7 = v8 + 6u;
TEST(v7);
v42 = AT16(v7, 0);
SET16(v7, 0, v42 + 1u);
goto L407;
L408:;
v7 = v8 + 8u;
TEST(v7);
v42 = AT16(v7, 0);
SET16(v7, 0, v42 + 1u);
L407:;
TEST(v8);
v43 = AT16(v8, 0);
SET16(v8, 0, (v43 + 1u) & 16383u);
if (AT8(v6, 224)) goto L404;
v9 = v9 - 1u;
v44 = AT16(v6, 216);
v45 = AT16(v6, 226);
v7 = AT64(v8, 16);
v12 = AT64(v8, 24);
v15 = a2 + 32u;
v16 = AT64(v8, 48);
v18 = v12 - v16;
v17 = AT64(v8, 40);
if (v18 < (AT64(v8, 32) - v17)) {
v7 = v7 + ((v17 + v18) * 56u);
TEST(v7);
SET64(v7, 16, v14);
SET64(v7, 8, v13);
SET16(v7, 6, v42);
SET16(v7, 4, v43);
SET16(v7, 2, v45);
SET16(v7, 0, v44);
SET64(v7, 24, AT64(a5, 0));
SET64(v7, 32, AT64(a5, 8));
SET64(v7, 40, AT64(a5, 16));
SET64(v7, 48, AT64(a5, 24));
goto L412;
}
v7 = v7 + (v16 * 56u);
TEST(v7);
SET64(v7, 16, v14);
SET64(v7, 8, v13);
SET16(v7, 6, v42);
SET16(v7, 4, v43);
SET16(v7, 2, v45);
SET16(v7, 0, v44);
SET64(v7, 24, AT64(a5, 0));
SET64(v7, 32, AT64(a5, 8));
SET64(v7, 40, AT64(a5, 16));
SET64(v7, 48, AT64(a5, 24));
SET64(v8, 48, v16 + 1u);
L412:;
SET64(v8, 24, v12 + 1u);
a1 = a1 + 48u;
if (v9 != 0u) goto L406;
}
if (!(j0 == 0)) {
rud_dealloc(RUD_AS a3);
RUD_AGAIN
}
RUD_G0 = a5 + 32u;
goto L403;
L404:;
rud_trap();
L403:;
if (!(v10 == 0)) {
rud_dealloc(RUD_AS v19);
RUD_AGAIN
}
in_std_alloc_arc_Arc_drop_c3b6ee2ab0dfb523(RUD_AS AT64(v6, 240));
RUD_AGAIN
a1 = AT64(v6, 272);
a2 = AT64(v6, 256);
switch ((u32)(u64)AT8(v6, 248) - 1u) {
case 0u: goto L431;
case 1u: goto L430;
case 2u: goto L429;
case 3u: goto L428;
case 4u: goto L427;
case 5u: goto L426;
case 6u: goto L425;
case 7u: goto L424;
case 8u: case 11u: goto L416;
case 9u: goto L423;
case 10u: goto L422;
case 12u: goto L421;
case 13u: goto L420;
case 14u: goto L419;
case 15u: goto L418;
default: goto L432;
}
L432:;
if (!(a1 == 0)) goto L417;
goto L416;
L431:;
if (!(a1 == 0)) goto L417;
goto L416;
L430:;
if (!(a1 == 0)) goto L417;
goto L416;
L429:;
if (!(a1 == 0)) goto L417;
goto L416;
L428:;
if (!(a1 == 0)) goto L417;
goto L416;
L427:;
if (!(a1 == 0)) goto L417;
goto L416;
L426:;
if (!(a1 == 0)) goto L417;
goto L416;
L425:;
if (!(a1 == 0)) goto L417;
goto L416;
L424:;
if (!(a1 == 0)) goto L417;
goto L416;
L423:;
if (!(a1 == 0)) goto L417;
goto L416;
L422:;
if (!(a1 == 0)) goto L417;
goto L416;
L421:;
if (!(a1 == 0)) goto L417;
goto L416;
L420:;
if (!(a1 == 0)) goto L417;
goto L416;
L419:;
if (!(a1 == 0)) goto L417;
goto L416;
L418:;
if (a1 == 0) goto L416;
L417:;
rud_dealloc(RUD_AS a2);
RUD_AGAIN
L416:;
TEST(a0);
SET32(a0, 0, 0u);
SET64(a0, 8, a4);
goto L1;
L19:;
rud_trap();
L18:;
if (a1 == 0) goto L2;
goto L3;
L17:;
if (!(a1 == 0)) goto L3;
goto L2;
L16:;
if (!(a1 == 0)) goto L3;
goto L2;
L15:;
if (!(a1 == 0)) goto L3;
goto L2;
L14:;
if (!(a1 == 0)) goto L3;
goto L2;
L13:;
if (!(a1 == 0)) goto L3;
goto L2;
L12:;
if (!(a1 == 0)) goto L3;
goto L2;
L11:;
if (!(a1 == 0)) goto L3;
goto L2;
L10:;
if (!(a1 == 0)) goto L3;
goto L2;
L9:;
if (!(a1 == 0)) goto L3;
goto L2;
L8:;
if (!(a1 == 0)) goto L3;
goto L2;
L7:;
if (!(a1 == 0)) goto L3;
goto L2;
L6:;
if (!(a1 == 0)) goto L3;
goto L2;
L5:;
if (!(a1 == 0)) goto L3;
goto L2;
L4:;
if (a1 == 0) goto L2;
L3:;
rud_dealloc(RUD_AS a2);
RUD_AGAIN
L2:;
TEST(a0);
SET32(a0, 0, 1u);
SET64(a0, 8, 0u);
L1:;
RUD_G0 = v6 + 1712u;
}

static void in_mm_c_memory_refused(RUD_IT u64 a0, u64 a1) {
u32 v2 = 0, v3 = 0;
RUD_HERE
if ((s64)RUD_G0 >= (s64)16u) {
TEST(a1);
v3 = AT8(a1, 1);
v2 = AT8(a1, 0);
switch (v2 - 1u) {
case 0u: goto L8;
case 1u: goto L7;
case 2u: goto L6;
case 3u: goto L5;
case 4u: goto L4;
case 5u: goto L3;
default: goto L2;
}
L8:;
v2 = 15u;
goto L2;
L7:;
v2 = 8u;
goto L2;
L6:;
v2 = 23u;
goto L2;
L5:;
v2 = 54u;
goto L2;
L4:;
a1 = (u64)AT8(a1, 2);
v2 = v3;
switch (v2 - 1u) {
case 0u: goto L11;
case 1u: goto L10;
case 2u: goto L9;
default: goto L2;
}
L11:;
v2 = 49u;
goto L2;
L10:;
v2 = GET_FAR32(a1 << 2, 4205928);
goto L2;
L9:;
v2 = GET_FAR32(a1 << 2, 4205960);
goto L2;
L3:;
v2 = GET_FAR32((u64)v3 << 2, 4205976);
L2:;
TEST(a0);
SET64(a0, 12, 0u);
SET32(a0, 8, v2);
SET64(a0, 0, 2u);
SET64(a0, 20, 0u);
SET64(a0, 28, 0u);
SET64(a0, 36, 0u);
SET32(a0, 44, 0u);
return;
}
rud_trap();
}

static void in_rudlayog_memory_apply(RUD_IT u64 a0, u64 a1, u64 a2, u64 a3, u64 a4, u64 a5, u64 a6) {
u32 v10 = 0, v11 = 0, v12 = 0, v13 = 0, i0 = 0;
u64 v7 = 0, v8 = 0, v9 = 0, j0 = 0;
RUD_HERE
i0 = in_rattle_enter(RUD_AS0);
if (i0) {
rud_trap();
}
v7 = RUD_G0 - 144u;
RUD_G0 = v7;
if ((s64)v7 >= (s64)16u) {
TEST(v7);
SET8(v7, 62, 0u);
SET16(v7, 60, 0u);
FILL_FEW(v7 + 8u, 0u, 48u);
TEST(a0);
if (AT8(a0, 8) == 0) {
TEST(a6);
SET32(a6, 0, 3u);
FILL_FEW(a6 + 4u, 0u, 44u);
goto L4;
}
if (a5 <= 254u) {
TEST(a6);
SET32(a6, 0, 1u);
FILL_FEW(a6 + 4u, 0u, 36u);
SET64(a6, 40, 255u);
goto L4;
}
SET8(a0, 8, 0u);
v8 = AT64(a0, 0);
SET64(v7, 80, 0u);
SET64(v7, 88, 0u);
SET64(v7, 64, 0u);
SET64(v7, 72, 0u);
a5 = a2 + (a2 == 0 ? 4096ull : 0ull);
v9 = a4 + (a4 == 0 ? 4096ull : 0ull);
in_mm_service_service_Service_apply_in_memory(RUD_AS v7 + 80u, v8, a1, a5, a3, v9);
RUD_AGAIN
v11 = AT8(v7, 81);
v12 = AT8(v7, 80);
if (v11 | (u32)(v12 != 1u)) goto L8;
a2 = v7 + 96u;
FILL_FEW(a2, 0u, 48u);
a4 = RUD_G0 - 112u;
RUD_G0 = a4;
if ((s64)a4 >= (s64)16u) {
TEST(a4);
SET64(a4, 104, 0u);
SET64(a4, 96, 0u);
SET64(a4, 88, 0u);
SET64(a4, 80, 0u);
SET64(a4, 72, 0u);
SET64(a4, 64, 0u);
SET64(a4, 56, 0u);
SET64(a4, 48, 0u);
SET64(a4, 0, 0u);
SET64(a4, 8, 0u);
SET64(a4, 16, 0u);
SET64(a4, 24, 0u);
SET64(a4, 32, 0u);
SET64(a4, 37, 0u);
in_mm_packet_lent_LentPacket_parse(RUD_AS a4 + 48u, a5, a3);
if (AT8(a4, 48) == 0) {
v10 = 1u;
if (AT64(a4, 104) == 0) {
SET64(a4, 37, AT64(a4, 88));
SET64(a4, 29, AT64(a4, 80));
SET64(a4, 21, AT64(a4, 72));
SET64(a4, 13, AT64(a4, 64));
SET64(a4, 5, AT64(a4, 56));
v10 = 0u;
}
SET8(v7, 96, v10);
SET8(v7, 98, 0u);
SET8(v7, 97, v10);
SET64(v7, 104, AT64(a4, 5));
SET64(v7, 112, AT64(a4, 13));
SET64(v7, 120, AT64(a4, 21));
SET64(v7, 128, AT64(a4, 29));
SET64(v7, 136, AT64(a4, 37));
goto L11;
}
SET8(v7, 96, 1u);
SET64(v7, 104, 0u);
v10 = AT8(a4, 49);
SET8(v7, 98, v10);
SET8(v7, 97, v10 ? 2u : 0u);
SET64(v7, 112, 0u);
SET64(v7, 120, 0u);
SET64(v7, 128, 0u);
SET64(v7, 136, 0u);
L11:;
RUD_G0 = a4 + 112u;
goto L9;
}
rud_trap();
L9:;
if (AT8(v7, 96)) goto L8;
in_mm_st15_request_kind_RequestKind_of_code(RUD_AS v7, AT8(v7, 110));
if (AT8(v7, 0) != 1u) goto L8;
if ((1u << (AT8(v7, 1) & 31)) & 63124u) goto L8;
in_std_alloc_vec_Vec_clear_81505d604071a4c2(RUD_AS v8 + 168u);
RUD_AGAIN
in_mm_service_service_Service_apply_in_memory(RUD_AS v7 + 64u, v8, a1, a5, a3, v9);
RUD_AGAIN
v10 = AT8(v7, 67);
v13 = AT8(v7, 66);
v11 = AT8(v7, 65);
v12 = AT8(v7, 64);
j0 = AT64(v7, 72);
goto L7;
L8:;
v10 = AT8(v7, 83);
v13 = AT8(v7, 82);
j0 = AT64(v7, 88);
L7:;
a1 = j0;
i0 = in_mm_service_reserve_Reserve_fill(RUD_AS v8 + 168u);
RUD_AGAIN
if (v12 == 0) {
FILL_FEW(v7 + 8u, 0u, 40u);
SET64(v7, 48, a1);
goto L14;
}
SET8(v7, 62, v10);
SET8(v7, 61, v13);
SET8(v7, 60, v11);
in_mm_c_memory_refused(RUD_AS v7 + 8u, v7 + 60u);
L14:;
COPY_FEW(a6, v7 + 8u, 48u);
SET64(a0, 0, v8);
SET8(a0, 8, 1u);
L4:;
RUD_G0 = v7 + 144u;
goto L2;
}
rud_trap();
L2:;
RUD_G1 = 0u;
}

static void in_rudlayog_memory_bound(RUD_IT u64 a0, u64 a1, u64 a2) {
u32 i0 = 0;
u64 v3 = 0, v4 = 0;
RUD_HERE
i0 = in_rattle_enter(RUD_AS0);
if (i0) {
rud_trap();
}
if ((s64)RUD_G0 >= (s64)16u) {
v4 = a0 + 8u;
TEST(v4);
if (AT8(v4, 0)) goto L3;
TEST(a2);
SET32(a2, 0, 3u);
FILL_FEW(a2 + 4u, 0u, 44u);
goto L2;
}
rud_trap();
L3:;
TEST(a0);
v3 = AT64(a0, 0);
TEST(v3);
SET64(v3, 112, a1);
SET64(v3, 104, 1u);
FILL_FEW(a2, 0u, 48u);
SET64(a0, 0, v3);
SET8(v4, 0, 1u);
L2:;
RUD_G1 = 0u;
}

static void in_rudlayog_memory_close(RUD_IT u64 a0) {
u32 v5 = 0, i0 = 0;
u64 v1 = 0, v2 = 0, v4 = 0, j0 = 0;
RUD_HERE
i0 = in_rattle_enter(RUD_AS0);
if (i0) {
rud_trap();
}
v2 = RUD_G0 - 112u;
RUD_G0 = v2;
if ((s64)v2 >= (s64)16u) {
v1 = a0 + 8u;
TEST(v1);
if (AT8(v1, 0) == 1u) {
SET8(v1, 0, 0u);
TEST(a0);
v1 = AT64(a0, 0);
SET64(a0, 0, 0u);
TEST(v1);
TEST(v2);
SET64(v2, 104, AT64(v1, 16));
SET64(v2, 96, AT64(v1, 8));
SET64(v2, 88, AT64(v1, 0));
a0 = AT64(v1, 24);
j0 = AT64(v1, 40);
COPY_FEW(v2 + 32u, v1 + 48u, 56u);
v4 = AT64(v1, 160);
v5 = AT8(v1, 128);
SET64(v2, 24, AT64(v1, 184));
SET64(v2, 16, AT64(v1, 176));
SET64(v2, 8, AT64(v1, 168));
rud_dealloc(RUD_AS v1);
RUD_AGAIN
in_std_alloc_vec_Vec_drop_5b598d246d396421(RUD_AS v2 + 88u);
RUD_AGAIN
if (!(j0 == 0)) {
rud_dealloc(RUD_AS a0);
RUD_AGAIN
}
in_std_alloc_vec_deque_VecDeque_drop_af93cb7c0deb105d(RUD_AS v2 + 48u);
RUD_AGAIN
if (v5) {
in_std_alloc_arc_Arc_drop_c3b6ee2ab0dfb523(RUD_AS v4);
RUD_AGAIN
}
in_std_alloc_vec_Vec_drop_95beaedac91b374b(RUD_AS v2 + 8u);
RUD_AGAIN
}
RUD_G0 = v2 + 112u;
goto L2;
}
rud_trap();
L2:;
RUD_G1 = 0u;
}

static u64 in_mm_store_queue_first_place_43887c423445e301(RUD_IT u64 a0, u64 a1) {
u32 v8 = 0;
u64 v2 = 0, v3 = 0, v4 = 0, v5 = 0, v6 = 0, v7 = 0, j0 = 0;
RUD_HERE
if ((s64)RUD_G0 < (s64)16u) goto L2;
TEST(a0);
v5 = AT64(a0, 16);
v8 = v5 == 0;
if (v8 == 0) {
v2 = AT64(a0, 24);
v3 = AT64(a0, 8);
v3 = GET64(AT64(a0, 0) + ((v2 - (v2 < v3 ? 0ull : v3)) * 40u), 0);
}
v2 = a1 + 1u;
v4 = v2 == 0 ? 18446744073709551615ull : v2;
v2 = v4 - v3;
v2 = v2 > v4 ? 0ull : v2;
if (v2 > v5) goto L5;
if (v3 < v4) {
v3 = (v2 + AT64(a0, 24)) - 1u;
v4 = AT64(a0, 8);
if (GET64(AT64(a0, 0) + ((v3 - (v3 < v4 ? 0ull : v4)) * 40u), 0) > a1) goto L5;
}
if (v2 == v5) {
return v5;
}
if (v2 >= v5) goto L2;
v6 = AT64(a0, 0);
v7 = AT64(a0, 24);
v3 = v7 + v2;
v4 = AT64(a0, 8);
if (a1 >= GET64(v6 + ((v3 - (v3 < v4 ? 0ull : v4)) * 40u), 0)) goto L4;
goto L1;
L5:;
if (v8) {
return 0u;
}
v4 = AT64(a0, 8);
v7 = AT64(a0, 24);
v6 = AT64(a0, 0);
L4:;
a0 = v5 >> 1;
v2 = a0 + v7;
v8 = GET64(v6 + ((v2 - (v2 < v4 ? 0ull : v4)) * 40u), 0) > a1;
v2 = v8 ? 0ull : (a0 + 1u);
v3 = v8 ? a0 : v5;
if (v2 >= v3) goto L1;
L9:;
a0 = ((v3 - v2) >> 1) + v2;
if (v5 <= a0) goto L2;
j0 = v2;
v2 = a0 + v7;
v8 = GET64(v6 + ((v2 - (v2 < v4 ? 0ull : v4)) * 40u), 0) > a1;
v2 = v8 ? j0 : (a0 + 1u);
v3 = v8 ? a0 : v3;
if (v2 < v3) goto L9;
goto L1;
L2:;
rud_trap();
return 0;
L1:;
return v2;
}

static u64 in_mm_store_queue_first_place_569124304bd8e99f(RUD_IT u64 a0, u64 a1) {
u32 v9 = 0;
u64 v2 = 0, v3 = 0, v4 = 0, v5 = 0, v6 = 0, v7 = 0, v8 = 0, j0 = 0, j1 = 0;
RUD_HERE
if ((s64)RUD_G0 < (s64)16u) goto L2;
TEST(a0);
v5 = AT64(a0, 32);
v9 = v5 == 0;
if (v9 == 0) {
v2 = AT64(a0, 24);
j0 = AT64(a0, 0);
if (AT64(a0, 56) != v5) {
j1 = v2 + (AT64(a0, 48) << 2);
} else {
j1 = v2;
}
TEST(j1);
v2 = j0 + ((u64)AT32(j1, 0) * 48u);
TEST(v2);
if ((AT8(v2, 0) & 1u) == 0) goto L2;
v2 = AT64(v2, 8);
}
v3 = a1 + 1u;
v4 = v3 == 0 ? 18446744073709551615ull : v3;
v3 = v4 - v2;
v3 = v3 > v4 ? 0ull : v3;
if (v3 > v5) goto L6;
if (v2 < v4) {
v2 = AT64(a0, 24);
j0 = AT64(a0, 0);
v4 = v3 - 1u;
v6 = v5 - AT64(a0, 56);
if (v4 < v6) {
j1 = (v2 + (AT64(a0, 48) << 2)) + (v4 << 2);
goto L8;
}
j1 = v2 + ((v4 - v6) << 2);
L8:;
TEST(j1);
v2 = j0 + ((u64)AT32(j1, 0) * 48u);
TEST(v2);
if ((AT8(v2, 0) & 1u) == 0) goto L2;
if (AT64(v2, 8) > a1) goto L6;
}
if (v3 == v5) {
return v5;
}
v4 = AT64(a0, 24);
v7 = AT64(a0, 0);
j0 = v7;
v6 = v5 - AT64(a0, 56);
if (v6 > v3) {
j1 = (v4 + (AT64(a0, 48) << 2)) + (v3 << 2);
goto L11;
}
j1 = v4 + ((v3 - v6) << 2);
L11:;
TEST(j1);
v2 = j0 + ((u64)AT32(j1, 0) * 48u);
TEST(v2);
if ((AT8(v2, 0) & 1u) == 0) goto L2;
j0 = v3;
v3 = AT64(v2, 8);
v2 = a1 < v3 ? j0 : 0ull;
if (v9) goto L1;
if (a1 >= v3) goto L5;
goto L1;
L6:;
if (v9) {
return 0u;
}
v6 = v5 - AT64(a0, 56);
v4 = AT64(a0, 24);
v7 = AT64(a0, 0);
L5:;
v2 = 0u;
L14:;
j0 = v7;
v3 = ((v5 - v2) >> 1) + v2;
if (v6 > v3) {
j1 = (v4 + (AT64(a0, 48) << 2)) + (v3 << 2);
goto L15;
}
j1 = v4 + ((v3 - v6) << 2);
L15:;
TEST(j1);
v8 = j0 + ((u64)AT32(j1, 0) * 48u);
TEST(v8);
if ((AT8(v8, 0) & 1u) == 0) goto L2;
v9 = AT64(v8, 8) > a1;
v2 = v9 ? v2 : (v3 + 1u);
v5 = v9 ? v3 : v5;
if (v2 < v5) goto L14;
goto L1;
L2:;
rud_trap();
return 0;
L1:;
return v2;
}

static void in_mm_packet_packet_Packet_write_to(RUD_IT u64 a0, u64 a1, u64 a2, u64 a3) {
u32 v4 = 0, v5 = 0, v6 = 0, v7 = 0, i0 = 0;
u64 v8 = 0, v9 = 0, v10 = 0, v11 = 0, v12 = 0, v13 = 0, v14 = 0, j0 = 0, j1 = 0;
RUD_HERE
if ((s64)RUD_G0 >= (s64)16u) {
v8 = a1 + 24u;
TEST(v8);
j0 = a3;
a3 = a1 + 8u;
TEST(a3);
v4 = AT8(a3, 0);
v13 = (((GET64(AT64(v8, 0), 16) + (v4 ? 15ull : 5ull)) - 1u) & 65535u) + 7u;
if (j0 < v13) {
i0 = 1u;
} else {
TEST(a1);
v5 = AT8(a1, 4);
v6 = AT16(a1, 5);
v7 = AT16(a1, 0);
TEST(a2);
SET16(a2, 0, (v7 << 8) | (((v7 | (v4 ? 2048u : 6144u)) >> 8) & 255u));
v4 = AT16(a1, 2);
SET16(a2, 2, (v4 << 8) | ((v4 >> 8) | 192u));
v8 = GET64(AT64(v8, 0), 16);
v4 = AT8(a3, 0);
SET16(a2, 7, v6);
SET8(a2, 6, v5 | 32u);
v4 = (u32)(v8 + (v4 ? 15ull : 5ull)) - 1u;
SET16(a2, 4, (v4 << 8) | ((v4 & 65280u) >> 8));
v4 = AT16(a3, 2);
v4 = (v4 << 8) | (v4 >> 8);
if (AT8(a3, 0)) {
a3 = AT64(a3, 8);
v5 = AT16(a1, 12);
SET16(a2, 11, (v5 << 8) | (v5 >> 8));
j1 = (((a3 << 56) | ((a3 & 65280u) << 40)) | (((a3 & 16711680u) << 24) | ((a3 & 4278190080u) << 8))) | ((((a3 >> 8) & 4278190080u) | ((a3 >> 24) & 16711680u)) | (((a3 >> 40) & 65280u) | (a3 >> 56)));
SET64(a2, 13, j1);
j0 = 21u;
} else {
j0 = 11u;
}
v8 = j0;
SET16(a2, 9, v4);
v12 = a2 + v8;
a1 = AT64(a1, 24);
TEST(a1);
v9 = AT64(a1, 8);
a1 = AT64(a1, 16);
if ((v12 - v9) < a1) {
v10 = a1 & 3u;
a3 = 0u;
if (a1 >= 4u) {
v14 = a1 & 0xfffffffffffffffcull;
L7:;
a1 = a3 + v12;
v11 = a3 + v9;
TEST(v11);
TEST(a1);
SET8(a1, 0, AT8(v11, 0));
SET8(a1, 1, AT8(v11, 1));
SET8(a1, 2, AT8(v11, 2));
SET8(a1, 3, AT8(v11, 3));
a3 = a3 + 4u;
if (v14 != a3) goto L7;
if (v10 == 0) goto L4;
}
a1 = a3 + v9;
a3 = a2 + (a3 + v8);
L8:;
TEST(a1);
TEST(a3);
SET8(a3, 0, AT8(a1, 0));
a3 = a3 + 1u;
a1 = a1 + 1u;
v10 = v10 - 1u;
if (v10 != 0u) goto L8;
goto L4;
}
if (a1 == 0) goto L4;
COPY(v12, v9, a1);
L4:;
i0 = 0u;
}
v4 = i0;
TEST(a0);
SET64(a0, 8, v13);
SET8(a0, 0, v4);
return;
}
rud_trap();
}

static void in_rudlayog_memory_next(RUD_IT u64 a0, u64 a1, u64 a2, u64 a3, u64 a4, u64 a5, u64 a6) {
u32 v19 = 0, v20 = 0, v21 = 0, v22 = 0, v23 = 0, v24 = 0, v25 = 0, v26 = 0, v27 = 0, i0 = 0;
u64 v7 = 0, v8 = 0, v9 = 0, v10 = 0, v11 = 0, v12 = 0, v13 = 0, v14 = 0, v15 = 0, v16 = 0, v17 = 0, v18 = 0;
u64 j0 = 0, j1 = 0;
RUD_HERE
i0 = in_rattle_enter(RUD_AS0);
if (i0) {
rud_trap();
}
v10 = RUD_G0 - 48u;
RUD_G0 = v10;
if ((s64)v10 < (s64)16u) goto L5;
TEST(a5);
SET64(a5, 0, 0u);
TEST(a0);
if (AT8(a0, 8) == 0) {
TEST(a6);
SET64(a6, 4, 0u);
SET32(a6, 0, 3u);
SET64(a6, 12, 0u);
SET64(a6, 20, 0u);
SET64(a6, 28, 0u);
SET64(a6, 36, 0u);
SET32(a6, 44, 0u);
goto L2;
}
if (a4 <= 1023u) {
TEST(a6);
SET64(a6, 4, 0u);
SET32(a6, 0, 1u);
SET64(a6, 12, 0u);
SET64(a6, 20, 0u);
SET64(a6, 28, 0u);
SET32(a6, 36, 0u);
SET64(a6, 40, 1024u);
goto L2;
}
SET8(a0, 8, 0u);
v17 = AT64(a0, 0);
if (a2 == 0) goto L9;
a1 = a1 + (a1 == 0 ? 4096ull : 0ull);
if (a2 > 8u) goto L11;
if (GET8((a1 + a2) - 1u, 0) == 32u) goto L11;
TEST(v17);
v8 = AT64(v17, 8);
v14 = AT64(v17, 0);
TEST(v10);
SET64(v10, 40, 2314885530818453536ull);
if (!(a2 == 0)) {
COPY(v10 + 40u, a1, a2);
}
v11 = v10 + 24u;
v7 = v14;
v9 = v10 + 40u;
if ((s64)RUD_G0 >= (s64)16u) {
if (!(v8 == 0)) {
v20 = AT8(v10, 47);
v21 = AT8(v10, 46);
v22 = AT8(v10, 45);
v23 = AT8(v10, 44);
v24 = AT8(v10, 43);
v25 = AT8(v10, 42);
v26 = AT8(v10, 41);
v27 = AT8(v10, 40);
L17:;
TEST(v7);
v9 = AT64(v7, 0);
i0 = (((u32)(v27 != ((u32)v9 & 255u)) | (u32)(v26 != ((u32)(v9 >> 8) & 255u))) | ((u32)(v25 != ((u32)(v9 >> 16) & 255u)) | (u32)(v24 != ((u32)(v9 >> 24) & 255u)))) | (((u32)(v23 != ((u32)(v9 >> 32) & 255u)) | (u32)(v22 != ((u32)(v9 >> 40) & 255u))) | ((u32)(v21 != ((u32)(v9 >> 48) & 255u)) | (u32)(v20 != (u32)(v9 >> 56))));
if (i0 == 0) {
v19 = 1u;
goto L15;
}
v7 = v7 + 192u;
v13 = v13 + 1u;
if (v8 != v13) goto L17;
}
v13 = 0u;
L15:;
SET64(v10, 32, v13);
SET8(v10, 24, v19);
goto L13;
}
rud_trap();
L13:;
if ((AT8(v10, 24) & 1u) == 0) goto L10;
v7 = AT64(v10, 32);
if (v8 <= v7) goto L10;
a1 = v14 + (v7 * 192u);
v14 = a1 + 128u;
TEST(v14);
if (AT8(v14, 0) != 1u) { i0 = 19u; goto L8; }
a2 = AT64(v14, 24);
v7 = AT64(v14, 8);
v7 = v7 - (u64)(u32)(v7 != 0u);
v7 = a2 > v7 ? a2 : v7;
v9 = a1 + 24u;
a2 = AT64(v14, 32);
v13 = AT64(v14, 16);
TEST(a1);
if (AT8(a1, 16) == 0) {
v16 = AT64(a1, 40);
if (v16 <= a2) goto L22;
v18 = AT64(a1, 24);
v15 = AT64(a1, 48) + a2;
v11 = AT64(a1, 32);
v8 = v18 + ((v15 - (v11 > v15 ? 0ull : v11)) * 40u);
TEST(v8);
v12 = AT64(v8, 0);
if (v12 <= v7) goto L22;
if ((u32)(a2 == 0) | (u32)((v12 - v7) == 1u)) goto L21;
v15 = v15 - 1u;
if (GET64(v18 + ((v15 - (v11 > v15 ? 0ull : v11)) * 40u), 0) <= v7) goto L21;
L22:;
j0 = in_mm_store_queue_first_place_43887c423445e301(RUD_AS v9, v7);
a2 = j0;
if (a2 == v16) goto L4;
if (a2 >= v16) goto L5;
v7 = AT64(a1, 48) + a2;
v8 = AT64(a1, 32);
v8 = AT64(a1, 24) + ((v7 - (v7 < v8 ? 0ull : v8)) * 40u);
TEST(v8);
if (v13 < AT64(v8, 0)) goto L4;
SET64(v14, 32, a2 + 1u);
j0 = v8 + 8u;
goto L19;
L21:;
if (v12 > v13) goto L4;
SET64(v14, 32, a2 + 1u);
j0 = v8 + 8u;
goto L19;
}
v16 = AT64(a1, 56);
if (v16 <= a2) goto L24;
v8 = AT64(a1, 48);
v15 = AT64(a1, 24);
j0 = v15;
v11 = v16 - AT64(a1, 80);
v19 = a2 >= v11;
if (v19 == 0) {
j1 = (v8 + (AT64(a1, 72) << 2)) + (a2 << 2);
goto L25;
}
j1 = v8 + ((a2 - v11) << 2);
L25:;
TEST(j1);
v12 = j0 + ((u64)AT32(j1, 0) * 48u);
TEST(v12);
if ((AT8(v12, 0) & 1u) == 0) goto L5;
v12 = AT64(v12, 8);
if (v12 <= v7) goto L24;
if ((u32)(a2 == 0) | (u32)((v12 - v7) == 1u)) goto L23;
j0 = v15;
v12 = a2 - 1u;
if (v11 > v12) {
j1 = (v8 + (AT64(a1, 72) << 2)) + (v12 << 2);
goto L27;
}
j1 = v8 + ((v12 - v11) << 2);
L27:;
TEST(j1);
v12 = j0 + ((u64)AT32(j1, 0) * 48u);
TEST(v12);
if ((AT8(v12, 0) & 1u) == 0) goto L5;
if (AT64(v12, 8) <= v7) goto L23;
L24:;
j0 = in_mm_store_queue_first_place_569124304bd8e99f(RUD_AS v9, v7);
a2 = j0;
if (a2 == v16) goto L4;
v7 = AT64(a1, 48);
j0 = AT64(a1, 24);
v8 = v16 - AT64(a1, 80);
if (v8 > a2) {
j1 = (v7 + (AT64(a1, 72) << 2)) + (a2 << 2);
goto L29;
}
j1 = v7 + ((a2 - v8) << 2);
L29:;
TEST(j1);
v7 = j0 + ((u64)AT32(j1, 0) * 48u);
TEST(v7);
if ((AT8(v7, 0) & 1u) == 0) goto L5;
v8 = v7 + 8u;
if (v13 < AT64(v7, 8)) goto L4;
SET64(v14, 32, a2 + 1u);
j0 = v7 + 16u;
goto L19;
L23:;
j0 = v15;
if (v19 == 0) {
j1 = (v8 + (AT64(a1, 72) << 2)) + (a2 << 2);
goto L31;
}
j1 = v8 + ((a2 - v11) << 2);
L31:;
TEST(j1);
v7 = j0 + ((u64)AT32(j1, 0) * 48u);
TEST(v7);
if ((AT8(v7, 0) & 1u) == 0) goto L5;
v8 = v7 + 8u;
if (v13 < AT64(v7, 8)) goto L4;
SET64(v14, 32, a2 + 1u);
j0 = v7 + 16u;
L19:;
a2 = j0;
TEST(v8);
j0 = a1 + 152u;
a1 = AT64(v8, 0);
SET64(v14, 24, a1);
in_mm_packet_packet_Packet_write_to(RUD_AS v10 + 8u, a2, a3 + (a3 == 0 ? 4096ull : 0ull), a4);
if (AT8(v10, 8)) goto L5;
a2 = AT64(v10, 16);
SET64(a5, 0, a1);
TEST(a6);
SET64(a6, 32, 0u);
SET64(a6, 24, 0u);
SET64(a6, 16, 0u);
SET64(a6, 8, 0u);
SET64(a6, 0, 0u);
SET64(a6, 40, a2);
goto L3;
L11:;
if (a2 > 8u) goto L9;
L10:;
L33:;
if (a2 == 0) { i0 = 23u; goto L8; }
a2 = a2 - 1u;
TEST(a1);
v19 = AT8(a1, 0);
a1 = a1 + 1u;
if (((u32)(v19 == 45u) | (u32)(v19 == 95u)) | ((u32)(((v19 - 65u) & 255u) < 26u) | (u32)(((v19 - 48u) & 255u) < 10u))) goto L33;
L9:;
i0 = 15u;
L8:;
v19 = i0;
TEST(a6);
SET64(a6, 12, 0u);
SET32(a6, 8, v19);
SET64(a6, 0, 2u);
SET64(a6, 20, 0u);
SET64(a6, 28, 0u);
SET64(a6, 36, 0u);
SET32(a6, 44, 0u);
goto L3;
L5:;
rud_trap();
L4:;
SET64(v14, 24, 0u);
SET64(v14, 16, 0u);
SET64(v14, 8, 0u);
SET64(v14, 0, 0u);
TEST(a6);
SET64(a6, 4, 0u);
SET32(a6, 0, 5u);
SET64(a6, 12, 0u);
SET64(a6, 20, 0u);
SET64(a6, 28, 0u);
SET64(a6, 36, 0u);
SET32(a6, 44, 0u);
L3:;
SET64(a0, 0, v17);
SET8(a0, 8, 1u);
L2:;
RUD_G0 = v10 + 48u;
RUD_G1 = 0u;
}

static void in_mm_service_reading_id_of(RUD_IT u64 a0, u64 a1, u64 a2) {
u32 v6 = 0, v7 = 0, v8 = 0, v9 = 0, i0 = 0;
u64 v3 = 0, v4 = 0, j0 = 0;
RUD_HERE
v4 = RUD_G0 - 16u;
if ((s64)v4 >= (s64)16u) {
v8 = 1u;
if ((a2 - 1u) > 7u) goto L2;
L4:;
if (a2 != v3) {
j0 = a1 + v3;
v3 = v3 + 1u;
TEST(j0);
v6 = AT8(j0, 0);
if (((u32)(v6 == 45u) | (u32)(v6 == 95u)) | ((u32)(((v6 - 65u) & 255u) < 26u) | (u32)(((v6 - 48u) & 255u) < 10u))) goto L4;
goto L2;
}
TEST(v4);
SET64(v4, 8, 2314885530818453536ull);
if (!(a2 == 0)) {
COPY(v4 + 8u, a1, a2);
}
a1 = AT64(v4, 8);
v3 = a1 >> 24;
v7 = (u32)(a1 >> 8);
v9 = (u32)a1;
v8 = 0u;
i0 = (u32)(a1 >> 16);
goto L1;
}
rud_trap();
L2:;
v3 = 0u;
v9 = 1u;
i0 = 0u;
L1:;
v6 = i0;
TEST(a0);
SET8(a0, 0, v8);
SET8(a0, 8, (u32)(v3 >> 32));
SET32(a0, 4, (u32)v3);
SET8(a0, 3, v6);
SET8(a0, 2, v7);
SET8(a0, 1, v9);
}

static void in_mm_memory_spare_given_up(RUD_IT u64 a0, u64 a1) {
u32 v7 = 0, v8 = 0;
u64 v2 = 0, v3 = 0, v4 = 0, v5 = 0, v6 = 0, j0 = 0, j1 = 0;
RUD_HERE
v6 = RUD_G0;
if ((s64)v6 < (s64)16u) goto L1;
TEST(a1);
if (AT8(a1, 104) != 1u) goto L2;
v8 = AT8(a1, 0);
if (GET64(a1 + (v8 ? 96ull : 40ull), 0) == 0xffffffffffffffffull) goto L2;
if ((u32)(v8 == 1u) | (u32)(AT64(a1, 152) == 0xffffffffffffffffull)) goto L2;
v3 = AT64(a1, 16);
if (GET32(a1 + (v8 ? 40ull : 24ull), 0) < (u32)v3) goto L2;
v4 = a1 + 8u;
if (v8 == 0) {
j0 = in_mm_store_queue_first_place_43887c423445e301(RUD_AS v4, 0u);
v4 = j0;
v5 = AT64(a1, 24);
if (v4 == v5) goto L2;
if (v4 >= v5) goto L1;
j0 = AT64(a1, 8);
a1 = AT64(a1, 32) + v4;
v2 = (j0 + ((a1 - (a1 < v3 ? 0ull : v3)) * 40u)) + 8u;
v7 = 1u;
goto L2;
}
j0 = in_mm_store_queue_first_place_569124304bd8e99f(RUD_AS v4, 0u);
v3 = j0;
v5 = AT64(a1, 40);
if (v3 == v5) goto L2;
v2 = AT64(a1, 32);
v7 = 1u;
j0 = AT64(a1, 8);
v5 = v5 - AT64(a1, 64);
if (v5 > v3) {
j1 = (v2 + (AT64(a1, 56) << 2)) + (v3 << 2);
goto L4;
}
j1 = v2 + ((v3 - v5) << 2);
L4:;
TEST(j1);
a1 = j0 + ((u64)AT32(j1, 0) * 48u);
TEST(a1);
if ((AT8(a1, 0) & 1u) == 0) goto L1;
v2 = a1 + 16u;
L2:;
TEST(a0);
SET64(a0, 8, v2);
SET8(a0, 0, v7);
RUD_G0 = v6;
return;
L1:;
rud_trap();
}

static void in_mm_memory_spare_Spare_take(RUD_IT u64 a0, u64 a1, u64 a2) {
u32 v15 = 0, v16 = 0, v17 = 0, i0 = 0;
u64 v3 = 0, v4 = 0, v5 = 0, v6 = 0, v7 = 0, v8 = 0, v9 = 0, v10 = 0, v11 = 0, v12 = 0, v13 = 0, v14 = 0;
u64 j0 = 0, j1 = 0;
RUD_HERE
v9 = RUD_G0;
if ((s64)v9 >= (s64)16u) {
TEST(a1);
SET64(a1, 8, 0u);
SET64(a1, 16, 0u);
SET64(a1, 24, 0u);
i0 = AT8(a1, 0);
SET64(a1, 0, 0u);
a1 = a1 + 32u;
TEST(a1);
v4 = AT64(a1, 0);
SET64(a1, 0, 0u);
if (i0 == 1u) {
TEST(v4);
a1 = AT64(v4, 0);
if (a1 == 1u) {
TEST(a2);
a1 = AT64(a2, 32);
v6 = AT64(a2, 24);
v3 = v4 + 16u;
if (!(AT64(v4, 16) == 0)) {
SET64(v4, 16, 0u);
}
v10 = AT64(v4, 24);
if (v10 < a1) {
i0 = in_std_alloc_vec_Vec_grow_amortized_795f5fd3dc7a282e(RUD_AS v4 + 8u, a1);
RUD_AGAIN
if (i0 == 0) goto L6;
v10 = AT64(v4, 24);
v5 = AT64(v4, 16);
}
SET64(v4, 16, 0u);
SET64(v4, 24, 0u);
v13 = a1 + v5;
v11 = AT64(v4, 8);
v12 = v11 + v5;
if (a1 > (v12 - v6)) {
v7 = a1 & 3u;
v3 = 0u;
if (a1 >= 4u) {
v14 = a1 & 0xfffffffffffffffcull;
L12:;
a1 = v3 + v12;
v8 = v3 + v6;
TEST(v8);
TEST(a1);
SET8(a1, 0, AT8(v8, 0));
SET8(a1, 1, AT8(v8, 1));
SET8(a1, 2, AT8(v8, 2));
SET8(a1, 3, AT8(v8, 3));
v3 = v3 + 4u;
if (v14 != v3) goto L12;
if (v7 == 0) goto L2;
}
a1 = v3 + v6;
v3 = v11 + (v3 + v5);
L13:;
TEST(a1);
TEST(v3);
SET8(v3, 0, AT8(a1, 0));
v3 = v3 + 1u;
a1 = a1 + 1u;
v7 = v7 - 1u;
if (v7 != 0u) goto L13;
goto L2;
}
if (a1 == 0) goto L2;
COPY(v12, v6, a1);
goto L2;
}
SET64(v4, 0, a1 - 1u);
v15 = 0u;
a2 = 0u;
goto L3;
L6:;
a1 = AT64(v4, 0);
SET64(v4, 0, a1 - 1u);
v15 = 0u;
a2 = 0u;
if (a1 != 1u) goto L3;
j0 = AT64(v4, 8);
j1 = AT64(v4, 24);
rud_dealloc(RUD_AS v4);
RUD_AGAIN
if (j1 == 0) goto L3;
rud_dealloc(RUD_AS j0);
RUD_AGAIN
goto L3;
}
TEST(a0);
SET64(a0, 32, 0u);
SET64(a0, 24, 0u);
SET64(a0, 16, 0u);
SET64(a0, 8, 0u);
SET64(a0, 0, 0u);
RUD_G0 = v9;
return;
}
rud_trap();
L3:;
v3 = 0u;
a1 = 0u;
v4 = 0u;
goto L1;
L2:;
SET64(v4, 24, v10);
SET64(v4, 16, v13);
SET64(v4, 8, v11);
a1 = AT64(a2, 16);
v17 = AT16(a2, 12);
v16 = AT16(a2, 10);
v15 = AT8(a2, 8);
v3 = AT64(a2, 0);
a2 = 1u;
L1:;
TEST(a0);
SET64(a0, 0, a2);
SET64(a0, 32, v4);
SET64(a0, 24, a1);
SET16(a0, 22, 0u);
SET16(a0, 20, v17);
SET16(a0, 18, v16);
SET16(a0, 16, v15);
SET64(a0, 8, v3);
RUD_G0 = v9;
}

static void in_mm_desk_state_StoreState_offer(RUD_IT u64 a0, u64 a1, u64 a2, u64 a3) {
u32 v14 = 0, i0 = 0;
u64 v4 = 0, v5 = 0, v6 = 0, v7 = 0, v8 = 0, v9 = 0, v10 = 0, v11 = 0, v12 = 0, v13 = 0, j0 = 0;
RUD_HERE
v4 = RUD_G0 - 288u;
RUD_G0 = v4;
if ((s64)v4 < (s64)16u) goto L4;
v5 = a3 + 8u;
TEST(a3);
a3 = AT64(a3, 0);
TEST(v4);
SET64(v4, 16, 0u);
SET64(v4, 8, 0u);
SET64(v4, 0, 0u);
TEST(a1);
if (AT8(a1, 104) == 0) {
TEST(v5);
a1 = AT64(v5, 16);
a2 = AT64(v5, 8);
v5 = AT64(v5, 0);
TEST(a0);
SET64(a0, 16, a3);
SET64(a0, 8, 1u);
SET64(a0, 0, 1u);
SET64(a0, 24, v5);
SET64(a0, 32, a2);
SET64(a0, 40, a1);
SET64(a0, 48, 0u);
SET64(v4, 40, a1);
SET64(v4, 32, a2);
SET64(v4, 24, v5);
goto L1;
}
v14 = AT8(a1, 0);
if (GET64(a1 + (v14 ? 96ull : 40ull), 0) != 0xffffffffffffffffull) {
if (AT64(a1, 152) != 0xffffffffffffffffull) goto L6;
}
TEST(v5);
a1 = AT64(v5, 16);
a2 = AT64(v5, 8);
v5 = AT64(v5, 0);
TEST(a0);
SET64(a0, 16, a3);
SET64(a0, 8, 5u);
SET64(a0, 0, 1u);
SET64(a0, 24, v5);
SET64(a0, 32, a2);
SET64(a0, 40, a1);
SET64(a0, 48, 0u);
SET64(v4, 40, a1);
SET64(v4, 32, a2);
SET64(v4, 24, v5);
goto L1;
L6:;
if (v14 == 0) {
SET64(v4, 112, 0u);
SET64(v4, 120, 0u);
SET64(v4, 128, 0u);
SET64(v4, 136, 0u);
SET64(v4, 144, 0u);
TEST(v5);
SET64(v4, 152, AT64(v5, 0));
SET64(v4, 160, AT64(v5, 8));
SET64(v4, 168, AT64(v5, 16));
v6 = a1 + 40u;
v8 = AT64(a1, 40);
if (v8 == 0xffffffffffffffffull) {
SET64(v4, 64, AT64(v5, 16));
SET64(v4, 56, AT64(v5, 8));
SET64(v4, 48, AT64(v5, 0));
v14 = 3u;
a2 = a3;
goto L2;
}
v5 = a1 + 8u;
v7 = v8 + 1u;
a2 = a2 < v7 ? v7 : a2;
SET64(a1, 40, a2);
if (AT64(a1, 24) < AT64(a1, 16)) {
SET64(v4, 216, 0u);
SET64(v4, 224, 0u);
SET64(v4, 232, 0u);
SET64(v4, 240, 0u);
SET64(v4, 248, 0u);
SET64(v4, 256, 0u);
SET64(v4, 184, a3);
SET64(v4, 176, a2);
SET64(v4, 192, AT64(v4, 152));
SET64(v4, 200, AT64(v4, 160));
SET64(v4, 208, AT64(v4, 168));
a3 = v4 + 216u;
v7 = v4 + 176u;
v14 = 0u;
if ((s64)RUD_G0 >= (s64)16u) {
v6 = AT64(a1, 16);
v8 = AT64(a1, 24);
if (v6 <= v8) {
COPY_FEW(a3 + 8u, v7, 40u);
v14 = 1u;
goto L12;
}
v8 = AT64(a1, 32) + v8;
COPY_FEW(AT64(a1, 8) + ((v8 - (v6 > v8 ? 0ull : v6)) * 40u), v7, 40u);
v5 = v5 + 16u;
SET64(a1, 24, AT64(a1, 24) + 1u);
FILL_FEW(a3 + 8u, 0u, 40u);
goto L12;
}
rud_trap();
L12:;
SET8(v4, 216, v14);
if (AT8(v4, 216) == 0) { j0 = 0u; goto L8; }
in_std_alloc_arc_Arc_drop_c3b6ee2ab0dfb523(RUD_AS AT64(v4, 256));
RUD_AGAIN
rud_trap();
}
SET64(v4, 80, a3);
SET64(v4, 72, a2);
SET64(v4, 88, AT64(v4, 152));
SET64(v4, 96, AT64(v4, 160));
SET64(v4, 104, AT64(v4, 168));
v7 = v4 + 112u;
v6 = v4 + 72u;
a3 = RUD_G0 - 112u;
RUD_G0 = a3;
if ((s64)a3 < (s64)16u) goto L17;
v8 = AT64(v4, 104);
TEST(a3);
SET64(a3, 80, AT64(v4, 72));
SET64(a3, 88, AT64(v4, 80));
SET64(a3, 96, AT64(v4, 88));
SET64(a3, 104, AT64(v4, 96));
v6 = AT64(a1, 24);
if (v6 == 0) goto L17;
v9 = v5 + 16u;
v11 = v6 - 1u;
SET64(a1, 24, v11);
v6 = v5 + 24u;
v12 = AT64(a1, 32);
v10 = v12 + 1u;
j0 = v6;
v6 = AT64(a1, 16);
v10 = v10 - (v6 > v10 ? 0ull : v6);
SET64(a1, 32, v10);
v13 = AT64(a1, 8);
v5 = v13 + (v12 * 40u);
TEST(v5);
SET64(a3, 40, AT64(v5, 0));
SET64(a3, 48, AT64(v5, 8));
SET64(a3, 56, AT64(v5, 16));
SET64(a3, 64, AT64(v5, 24));
SET64(a3, 72, AT64(v5, 32));
if (v6 <= v11) goto L16;
v5 = v10 + v11;
v5 = v13 + ((v5 - (v5 < v6 ? 0ull : v6)) * 40u);
TEST(v5);
SET64(v5, 24, AT64(a3, 104));
SET64(v5, 16, AT64(a3, 96));
SET64(v5, 8, AT64(a3, 88));
SET64(v5, 0, AT64(a3, 80));
SET64(v5, 32, v8);
SET64(a1, 24, AT64(a1, 24) + 1u);
SET64(a3, 0, AT64(a3, 40));
SET64(a3, 8, AT64(a3, 48));
SET64(a3, 16, AT64(a3, 56));
SET64(a3, 24, AT64(a3, 64));
SET64(a3, 32, AT64(a3, 72));
SET64(v4, 144, AT64(a3, 32));
SET64(v4, 136, AT64(a3, 24));
SET64(v4, 128, AT64(a3, 16));
SET64(v4, 120, AT64(a3, 8));
SET64(v4, 112, AT64(a3, 0));
RUD_G0 = a3 + 112u;
goto L15;
L17:;
rud_trap();
L16:;
in_std_alloc_arc_Arc_drop_c3b6ee2ab0dfb523(RUD_AS v8);
RUD_AGAIN
rud_trap();
L15:;
SET64(v4, 48, AT64(v4, 120));
SET64(v4, 56, AT64(v4, 128));
SET64(v4, 64, AT64(v4, 136));
v14 = 1u;
v7 = AT64(v4, 144);
goto L2;
}
TEST(v5);
SET64(v4, 280, AT64(v5, 16));
SET64(v4, 272, AT64(v5, 8));
SET64(v4, 264, AT64(v5, 0));
v6 = AT64(a1, 96);
if (v6 == 0xffffffffffffffffull) {
SET64(v4, 64, AT64(v5, 16));
SET64(v4, 56, AT64(v5, 8));
SET64(v4, 48, AT64(v5, 0));
v14 = 3u;
goto L3;
}
if (AT64(a1, 40) >= AT64(a1, 16)) {
SET64(v4, 64, AT64(v5, 16));
SET64(v4, 56, AT64(v5, 8));
SET64(v4, 48, AT64(v5, 0));
v14 = 2u;
goto L3;
}
v5 = v6 + 1u;
a2 = a2 < v5 ? v5 : a2;
SET64(a1, 96, a2);
v5 = a1 + 80u;
v7 = AT64(a1, 80);
if (v7 == 0) goto L4;
j0 = v5;
v5 = v7 - 1u;
SET64(a1, 80, v5);
v14 = GET32(AT64(a1, 72) + (v5 << 2), 0);
v5 = AT64(a1, 8) + ((u64)v14 * 48u);
TEST(v5);
SET64(v5, 8, a2);
SET64(v5, 32, AT64(v4, 272));
SET64(v5, 24, AT64(v4, 264));
SET64(v5, 16, a3);
i0 = AT8(v5, 0);
SET64(v5, 0, 1u);
a3 = v5 + 40u;
v5 = AT64(v5, 40);
TEST(a3);
SET64(a3, 0, AT64(v4, 280));
if (i0 == 1u) {
in_std_alloc_arc_Arc_drop_c3b6ee2ab0dfb523(RUD_AS v5);
RUD_AGAIN
}
a3 = AT64(a1, 32);
v7 = AT64(a1, 40);
v6 = a1 + 64u;
v5 = AT64(a1, 64);
v8 = v7 - v5;
v9 = AT64(a1, 56);
if (v8 < (AT64(a1, 48) - v9)) {
PUT32(a3 + ((v8 + v9) << 2), 0, v14);
goto L21;
}
PUT32(a3 + (v5 << 2), 0, v14);
SET64(a1, 64, v5 + 1u);
L21:;
SET64(a1, 40, v7 + 1u);
j0 = 0u;
L8:;
v7 = j0;
SET64(v4, 48, 0u);
SET64(v4, 56, 0u);
SET64(v4, 64, 0u);
v14 = 0u;
goto L2;
L4:;
rud_trap();
L3:;
a2 = a3;
L2:;
SET64(v4, 16, AT64(v4, 64));
SET64(v4, 8, AT64(v4, 56));
SET64(v4, 0, AT64(v4, 48));
a3 = 1u;
v5 = a1 + 152u;
SET64(a1, 152, AT64(a1, 152) + 1u);
a1 = a1 + 160u;
TEST(a1);
SET64(a1, 0, AT64(a1, 0) + (u64)(u32)(v14 != 0u));
switch (v14 - 1u) {
case 0u: goto L26;
case 1u: goto L25;
case 2u: goto L24;
default: goto L27;
}
L27:;
v7 = 0u;
SET64(v4, 232, 0u);
SET64(v4, 224, 0u);
SET64(v4, 216, 0u);
a3 = 0u;
j0 = 0u;
goto L23;
L26:;
SET64(v4, 232, AT64(v4, 16));
SET64(v4, 224, AT64(v4, 8));
SET64(v4, 216, AT64(v4, 0));
a3 = 0u;
j0 = 1u;
goto L23;
L25:;
SET64(v4, 232, AT64(v4, 16));
SET64(v4, 224, AT64(v4, 8));
SET64(v4, 216, AT64(v4, 0));
v7 = 0u;
a3 = 0u;
j0 = 2u;
goto L23;
L24:;
SET64(v4, 232, AT64(v4, 16));
SET64(v4, 224, AT64(v4, 8));
SET64(v4, 216, AT64(v4, 0));
v7 = 0u;
j0 = 5u;
L23:;
a1 = j0;
v5 = AT64(v4, 232);
SET64(v4, 40, v5);
v6 = AT64(v4, 224);
SET64(v4, 32, v6);
v8 = AT64(v4, 216);
SET64(v4, 24, v8);
TEST(a0);
SET64(a0, 16, a2);
SET64(a0, 8, a1);
SET64(a0, 0, a3);
SET64(a0, 24, v8);
SET64(a0, 32, v6);
SET64(a0, 40, v5);
SET64(a0, 48, v7);
L1:;
RUD_G0 = v4 + 288u;
}

static void in_rudlayog_memory_offer(RUD_IT u64 a0, u64 a1, u64 a2, u64 a3, u64 a4, u64 a5, u64 a6, u64 a7) {
u32 v15 = 0, v16 = 0, v17 = 0, v18 = 0, v19 = 0, v20 = 0, v21 = 0, v22 = 0, i0 = 0, i1 = 0;
u64 v8 = 0, v9 = 0, v10 = 0, v11 = 0, v12 = 0, v13 = 0, v14 = 0, j0 = 0, j1 = 0;
RUD_HERE
(void)v10;
i0 = in_rattle_enter(RUD_AS0);
if (i0) {
rud_trap();
}
v12 = a0;
v8 = RUD_G0 - 368u;
RUD_G0 = v8;
if ((s64)v8 >= (s64)16u) {
TEST(v8);
SET8(v8, 66, 0u);
SET16(v8, 64, 0u);
FILL_FEW(v8 + 16u, 0u, 48u);
TEST(a6);
SET64(a6, 8, 0u);
SET64(a6, 0, 0u);
a0 = v12 + 8u;
TEST(a0);
if (AT8(a0, 0) == 0) {
TEST(a7);
SET32(a7, 0, 3u);
FILL_FEW(a7 + 4u, 0u, 44u);
goto L2;
}
SET8(a0, 0, 0u);
TEST(v12);
v11 = AT64(v12, 0);
SET32(v8, 68, 0u);
SET64(v8, 120, 0u);
SET8(v8, 128, 0u);
FILL_FEW(v8 + 72u, 0u, 48u);
in_mm_service_reading_id_of(RUD_AS v8 + 120u, a1 + (a1 == 0 ? 4096ull : 0ull), a2);
a0 = AT64(v8, 121);
if (AT8(v8, 120) == 0) {
SET64(v8, 136, a0);
a1 = v8 + 72u;
a2 = a4 + (a4 == 0 ? 4096ull : 0ull);
a0 = RUD_G0 - 112u;
RUD_G0 = a0;
if ((s64)a0 >= (s64)16u) {
TEST(a0);
SET64(a0, 15, 0u);
SET64(a0, 8, 0u);
SET64(a0, 0, 0u);
SET64(a0, 104, 0u);
SET64(a0, 96, 0u);
SET64(a0, 88, 0u);
SET64(a0, 80, 0u);
SET64(a0, 72, 0u);
SET64(a0, 64, 0u);
SET64(a0, 56, 0u);
SET64(a0, 48, 0u);
in_mm_packet_lent_LentPacket_parse(RUD_AS a0 + 48u, a2, a5);
if (AT8(a0, 48)) goto L17;
j0 = a1;
if (AT64(a0, 104) == 0) {
SET64(a0, 24, AT64(a0, 65));
SET64(a0, 32, AT64(a0, 73));
SET64(a0, 39, AT64(a0, 80));
a2 = AT64(a0, 88);
v17 = AT8(a0, 64);
if ((a2 + (v17 ? 21ull : 11ull)) < 1025u) goto L20;
v16 = 2u;
a4 = 0u;
v17 = 0u;
a2 = 0u;
i1 = 1u;
goto L19;
}
i0 = 1u;
goto L16;
L20:;
a4 = AT64(a0, 56);
SET64(a0, 15, AT64(a0, 39));
SET64(a0, 8, AT64(a0, 32));
SET64(a0, 0, AT64(a0, 24));
i1 = 0u;
L19:;
SET8(v8, 72, i1);
SET8(v8, 88, v17);
SET64(v8, 80, a4);
SET16(v8, 74, 0u);
SET8(v8, 73, v16);
SET64(v8, 89, AT64(a0, 0));
SET64(v8, 97, AT64(a0, 8));
SET64(v8, 104, AT64(a0, 15));
SET64(v8, 112, a2);
goto L15;
}
rud_trap();
L17:;
v16 = AT8(a0, 49);
i0 = v16 ? 2u : 0u;
L16:;
v17 = i0;
SET8(v8, 72, 1u);
SET64(v8, 80, 0u);
SET8(v8, 75, v17 ? v16 : 0u);
SET8(v8, 74, v17);
SET8(v8, 73, v17 ? 5u : 0u);
SET64(v8, 88, 0u);
SET64(v8, 96, 0u);
SET64(v8, 104, 0u);
SET64(v8, 112, 0u);
L15:;
RUD_G0 = a0 + 112u;
if (AT8(v8, 72)) goto L9;
TEST(v11);
a0 = AT64(v11, 0);
a1 = AT64(v11, 8);
in_mm_desk_holding_place_of(RUD_AS v8, a0, a1, v8 + 136u);
v17 = 1u;
if ((AT8(v8, 0) & 1u) == 0) goto L13;
a2 = AT64(v8, 8);
v20 = a1 > a2;
if (v20 == 0) goto L13;
FILL_FEW(v8 + 328u, 0u, 40u);
FILL_FEW(v8 + 256u, 0u, 40u);
FILL_FEW(v8 + 200u, 0u, 56u);
v16 = 6u;
a1 = a0 + (a2 * 192u);
TEST(a1);
if (AT8(a1, 120) != 1u) {
v15 = 1u;
goto L5;
}
v15 = 5u;
a0 = (v20 ? a1 : 0ull) + 16u;
TEST(a0);
if (GET64(a0 + (AT8(a0, 0) ? 96ull : 40ull), 0) == 0xffffffffffffffffull) goto L5;
if (AT64(a1, 168) == 0xffffffffffffffffull) goto L5;
v9 = v11 + 128u;
a4 = v8 + 328u;
a5 = v8 + 80u;
a2 = a5;
v15 = 0u;
a1 = RUD_G0 - 48u;
RUD_G0 = a1;
if ((s64)a1 >= (s64)16u) {
TEST(a1);
SET64(a1, 40, 0u);
SET64(a1, 32, 0u);
SET64(a1, 24, 0u);
SET64(a1, 16, 0u);
SET64(a1, 8, 0u);
in_mm_packet_lent_LentPacket_packet_in_block(RUD_AS a1 + 8u, a2);
RUD_AGAIN
a2 = a4 + 8u;
if (AT8(a1, 8) == 0) {
SET64(v8, 360, AT64(a1, 40));
SET64(v8, 352, AT64(a1, 32));
SET64(v8, 344, AT64(a1, 24));
SET64(v8, 336, AT64(a1, 16));
goto L23;
}
SET64(v8, 360, 0u);
SET64(v8, 352, 0u);
SET64(v8, 344, 0u);
SET64(v8, 336, 0u);
v15 = 1u;
goto L23;
}
rud_trap();
L23:;
SET8(v8, 328, v15);
RUD_G0 = a1 + 48u;
if (AT8(v8, 328) == 0) {
SET64(v8, 320, AT64(v8, 360));
SET64(v8, 312, AT64(v8, 352));
SET64(v8, 304, AT64(v8, 344));
SET64(v8, 296, AT64(v8, 336));
goto L26;
}
v16 = 0u;
a1 = RUD_G0 - 16u;
RUD_G0 = a1;
if ((s64)a1 >= (s64)16u) {
in_mm_memory_spare_given_up(RUD_AS a1, a0);
v15 = 1u;
TEST(a1);
if (AT8(a1, 0) == 1u) {
v15 = GET64(GET64(AT64(a1, 8), 24), 0) == 1u;
goto L30;
}
if (AT8(a0, 104) != 1u) goto L30;
v18 = AT8(a0, 0);
if (GET64(a0 + (v18 ? 96ull : 40ull), 0) == 0xffffffffffffffffull) goto L30;
if (AT64(a0, 152) == 0xffffffffffffffffull) goto L30;
v15 = GET32(a0 + (v18 ? 40ull : 24ull), 0) == AT32(a0, 16);
L30:;
RUD_G0 = a1 + 16u;
i0 = v15;
goto L28;
}
rud_trap();
L28:;
if (i0 == 0) {
v15 = 0u;
goto L5;
}
in_mm_memory_spare_Spare_take(RUD_AS v8 + 256u, v9, a5);
RUD_AGAIN
v15 = 0u;
if (AT8(v8, 256) != 1u) goto L5;
SET64(v8, 320, AT64(v8, 288));
SET64(v8, 312, AT64(v8, 280));
SET64(v8, 304, AT64(v8, 272));
SET64(v8, 296, AT64(v8, 264));
L26:;
in_mm_desk_state_StoreState_offer(RUD_AS v8 + 200u, a0, a3, v8 + 296u);
RUD_AGAIN
a2 = v8 + 224u;
a3 = v8 + 209u;
v20 = AT8(v8, 200);
a4 = (u64)v20;
a0 = 0u;
v16 = 6u;
a1 = AT64(v8, 216);
v18 = AT8(v8, 208);
if (v20) {
v15 = v18;
goto L10;
}
v16 = 0u;
v15 = 0u;
v21 = v18;
switch (v18 - 1u) {
case 0u: goto L34;
case 1u: goto L10;
default: goto L12;
}
L34:;
i0 = 0u;
goto L11;
}
v19 = (u32)(a0 >> 16);
v15 = (u32)(a0 >> 8);
v16 = (u32)a0;
goto L6;
L13:;
v16 = 3u;
a0 = 0u;
i0 = 3u;
goto L3;
L12:;
v21 = 0u;
i0 = 0u;
L11:;
v15 = i0;
a0 = a1;
L10:;
SET8(v8, 152, v18);
SET64(v8, 144, a4);
SET64(v8, 160, a1);
SET32(v8, 153, AT32(v8, 209));
SET32(v8, 156, AT32(v8, 212));
SET64(v8, 168, AT64(v8, 224));
SET64(v8, 176, AT64(v8, 232));
SET64(v8, 184, AT64(v8, 240));
SET64(v8, 192, AT64(v8, 248));
v10 = v8 + 144u;
v13 = RUD_G0;
if ((s64)v13 >= (s64)16u) {
a1 = AT64(v8, 184);
a3 = AT64(v8, 176);
a2 = AT64(v8, 168);
v14 = AT64(v8, 160);
if (AT8(v8, 144)) {
a4 = a2;
a5 = a1;
goto L38;
}
a5 = AT64(v8, 192);
a4 = a3;
switch (AT8(v8, 152) - 1u) {
case 0u: goto L40;
case 1u: goto L41;
default: goto L37;
}
L41:;
a4 = a2;
a2 = v14;
a5 = a1;
a1 = a3;
L40:;
v14 = a2;
a3 = a1;
L38:;
TEST(a5);
a1 = AT64(a5, 0);
if (AT8(v11, 128) != 1u) {
if (a1 != 1u) {
SET64(a5, 0, a1 - 1u);
goto L35;
}
SET64(v11, 128, 1u);
SET64(v11, 160, a5);
SET64(v11, 152, a3);
SET64(v11, 144, a4);
SET64(v11, 136, v14);
goto L35;
}
SET64(a5, 0, a1 - 1u);
if (a1 != 1u) goto L37;
j0 = AT64(a5, 8);
j1 = AT64(a5, 24);
rud_dealloc(RUD_AS a5);
RUD_AGAIN
if (j1 == 0) goto L37;
rud_dealloc(RUD_AS j0);
RUD_AGAIN
L37:;
goto L35;
}
rud_trap();
L35:;
RUD_G0 = v13;
if (v20 == 0) {
v22 = 1u;
v17 = 0u;
v18 = 0u;
i0 = 0u;
goto L3;
}
goto L4;
L9:;
v19 = AT8(v8, 75);
v15 = AT8(v8, 74);
v16 = AT8(v8, 73);
goto L6;
}
rud_trap();
L6:;
v17 = 1u;
a0 = 0u;
goto L4;
L5:;
a0 = 0u;
L4:;
v18 = v15;
i0 = v16;
L3:;
v20 = i0;
SET8(v8, 71, v19);
SET8(v8, 70, v18);
SET8(v8, 69, v20);
SET8(v8, 68, v17);
a1 = v8 + 68u;
a2 = RUD_G0;
if ((s64)a2 >= (s64)16u) {
if (AT8(v8, 68) != 1u) goto L47;
if (AT8(v8, 69)) goto L47;
a1 = v11 + 120u;
TEST(a1);
j0 = a1;
a1 = AT64(a1, 0) + 1u;
SET64(j0, 0, a1 == 0 ? 18446744073709551615ull : a1);
L47:;
i0 = in_mm_memory_spare_Spare_fill(RUD_AS v11 + 128u);
RUD_AGAIN
RUD_G0 = a2;
goto L45;
}
rud_trap();
L45:;
if (v22) {
v19 = 1u;
switch (v21 - 1u) {
case 0u: goto L52;
case 1u: goto L51;
default: goto L50;
}
L52:;
v19 = 2u;
goto L50;
L51:;
a0 = 0u;
v19 = 3u;
L50:;
SET64(a6, 8, a0);
SET32(a6, 4, 0u);
SET32(a6, 0, v19);
FILL_FEW(a7, 0u, 48u);
goto L48;
}
SET8(v8, 66, v19);
SET8(v8, 65, v15);
SET8(v8, 64, v16);
a0 = v8 + 16u;
in_mm_c_memory_refused(RUD_AS a0, v8 + 64u);
COPY_FEW(a7, a0, 48u);
L48:;
SET64(v12, 0, v11);
SET8(v12, 8, 1u);
L2:;
RUD_G0 = v8 + 368u;
RUD_G1 = 0u;
}

static void in_mm_control_table_ControlTable_rows_for(RUD_IT u64 a0, u64 a1, u32 a2, u32 a3, u32 a4) {
u32 v11 = 0, v12 = 0, i0 = 0;
u64 v5 = 0, v6 = 0, v7 = 0, v8 = 0, v9 = 0, v10 = 0, j0 = 0;
RUD_HERE
if ((s64)RUD_G0 >= (s64)16u) {
TEST(a1);
v8 = AT64(a1, 0);
v9 = AT64(a1, 8);
if (v9 <= 1u) {
v6 = v9;
if ((u32)v6 - 1u) { j0 = v6; goto L1; }
goto L5;
}
a1 = v9;
L7:;
v7 = a1 >> 1;
v6 = v7 + v5;
v10 = v8 + (v6 * 12u);
TEST(v10);
v12 = AT16(v10, 0);
v11 = a2 & 65535u;
if (v12 != v11) {
i0 = v11 > v12;
goto L8;
}
v12 = AT8(v10, 2);
v11 = a3 & 255u;
if (v12 != v11) {
i0 = v11 > v12;
goto L8;
}
i0 = AT8(v10, 3) < (a4 & 255u);
L8:;
v11 = i0;
v5 = v11 ? v6 : v5;
a1 = a1 - v7;
if (a1 > 1u) goto L7;
L5:;
a1 = v8 + (v5 * 12u);
TEST(a1);
v12 = AT16(a1, 0);
v11 = a2 & 65535u;
if (v12 != v11) {
goto L3;
}
v12 = AT8(a1, 2);
v11 = a3 & 255u;
if (v12 != v11) {
goto L3;
}
if (AT8(a1, 3) < (a4 & 255u)) goto L2;
j0 = v5;
goto L1;
}
rud_trap();
L3:;
if (v11 > v12) goto L2;
j0 = v5;
goto L1;
L2:;
j0 = v5 + 1u;
L1:;
v6 = j0;
v7 = (v6 * 12u) + v8;
a1 = 0u;
v6 = v9 - v6;
if (v6 == 0) goto L13;
v5 = v7;
L14:;
TEST(v5);
if (AT16(v5, 0) != (a2 & 65535u)) goto L13;
if (AT8(v5, 2) != (a3 & 255u)) goto L13;
if (AT8(v5, 3) != (a4 & 255u)) goto L13;
v5 = v5 + 12u;
a1 = a1 + 1u;
if (v6 != a1) goto L14;
a1 = v6;
L13:;
TEST(a0);
SET64(a0, 8, a1);
SET64(a0, 0, v7);
}

static u32 in_mm_memory_recording_leads_to(RUD_IT u64 a0, u64 a1, u64 a2, u64 a3) {
u32 v4 = 0;
RUD_HERE
if ((s64)RUD_G0 >= (s64)16u) {
if (a1 <= a2) goto L3;
a2 = a0 + (a2 * 12u);
TEST(a2);
TEST(a3);
if (AT8(a2, 4) != AT8(a3, 0)) goto L3;
if (AT8(a2, 5) != AT8(a3, 1)) goto L3;
if (AT8(a2, 6) != AT8(a3, 2)) goto L3;
if (AT8(a2, 7) != AT8(a3, 3)) goto L3;
if (AT8(a2, 8) != AT8(a3, 4)) goto L3;
if (AT8(a2, 9) != AT8(a3, 5)) goto L3;
if (AT8(a2, 10) != AT8(a3, 6)) goto L3;
v4 = 1u;
if (AT8(a2, 11) == AT8(a3, 7)) goto L2;
L3:;
a1 = a1 + 1u;
L4:;
a1 = a1 - 1u;
v4 = a1 != 0u;
if (a1 == 0) goto L2;
a2 = a0;
a0 = a2 + 12u;
TEST(a2);
TEST(a3);
if (AT8(a2, 4) != AT8(a3, 0)) goto L4;
if (AT8(a2, 5) != AT8(a3, 1)) goto L4;
if (AT8(a2, 6) != AT8(a3, 2)) goto L4;
if (AT8(a2, 7) != AT8(a3, 3)) goto L4;
if (AT8(a2, 8) != AT8(a3, 4)) goto L4;
if (AT8(a2, 9) != AT8(a3, 5)) goto L4;
if (AT8(a2, 10) != AT8(a3, 6)) goto L4;
if (AT8(a2, 11) != AT8(a3, 7)) goto L4;
L2:;
return v4;
}
rud_trap();
return 0;
}

static void in_mm_memory_recording_offer_one(RUD_IT u64 a0, u64 a1, u64 a2, u64 a3, u64 a4) {
u32 v8 = 0, v9 = 0, v10 = 0, v11 = 0, v12 = 0;
u64 v5 = 0, v6 = 0, v7 = 0, j0 = 0, j1 = 0;
RUD_HERE
v5 = RUD_G0 - 96u;
RUD_G0 = v5;
if ((s64)v5 >= (s64)16u) {
TEST(v5);
SET64(v5, 88, 0u);
SET64(v5, 80, 0u);
SET64(v5, 72, 0u);
SET64(v5, 64, 0u);
SET64(v5, 56, 0u);
SET64(v5, 48, 0u);
SET64(v5, 40, 0u);
TEST(a3);
SET64(v5, 8, AT64(a3, 0));
SET64(v5, 16, AT64(a3, 8));
SET64(v5, 24, AT64(a3, 16));
SET64(v5, 32, AT64(a3, 24));
in_mm_desk_state_StoreState_offer(RUD_AS v5 + 40u, a1 + 16u, a2, v5 + 8u);
RUD_AGAIN
a3 = AT64(v5, 80);
a1 = AT64(v5, 72);
a2 = AT64(v5, 64);
v7 = AT64(v5, 56);
if (AT8(v5, 40)) {
v11 = 1u;
goto L3;
}
v8 = 1u;
v10 = AT8(v5, 48);
v12 = v10;
switch (v10 - 1u) {
case 0u: goto L5;
case 1u: goto L3;
default: goto L2;
}
L5:;
v9 = 1u;
v7 = a2;
a2 = a1;
a1 = a3;
a3 = AT64(v5, 88);
L3:;
TEST(a3);
v6 = AT64(a3, 0);
TEST(a4);
if (AT8(a4, 0) != 1u) {
if (v6 != 1u) {
SET64(a3, 0, v6 - 1u);
goto L6;
}
SET64(a4, 0, 1u);
SET64(a4, 32, a3);
SET64(a4, 24, a1);
SET64(a4, 16, a2);
SET64(a4, 8, v7);
goto L6;
}
SET64(a3, 0, v6 - 1u);
if (v6 != 1u) goto L6;
j0 = AT64(a3, 8);
j1 = AT64(a3, 24);
rud_dealloc(RUD_AS a3);
RUD_AGAIN
if (j1 == 0) goto L6;
rud_dealloc(RUD_AS j0);
RUD_AGAIN
L6:;
v10 = v11;
v12 = v8;
v8 = v9;
L2:;
TEST(a0);
SET32(a0, 8, v10);
SET32(a0, 4, v12);
SET32(a0, 0, v8);
RUD_G0 = v5 + 96u;
return;
}
rud_trap();
}

static void in_mm_memory_recording_offer_from_first(RUD_IT u64 a0, u64 a1, u64 a2, u64 a3, u64 a4, u64 a5, u64 a6, u64 a7, u64 a8) {
u32 v14 = 0, v15 = 0, v16 = 0, v17 = 0, v18 = 0, v19 = 0, i0 = 0;
u64 v9 = 0, v10 = 0, v11 = 0, v12 = 0, v13 = 0, j0 = 0, j1 = 0;
RUD_HERE
v9 = RUD_G0 - 160u;
RUD_G0 = v9;
if ((s64)v9 < (s64)16u) goto L2;
TEST(a7);
v10 = AT64(a7, 24);
v11 = AT64(a7, 16);
v17 = AT16(a7, 14);
v14 = AT16(a7, 12);
v15 = AT16(a7, 10);
v18 = AT8(a7, 9);
v16 = AT8(a7, 8);
v12 = AT64(a7, 0);
TEST(v9);
SET32(v9, 152, 0u);
a7 = 0u;
SET64(v9, 144, 0u);
SET64(v9, 128, 0u);
SET32(v9, 136, 0u);
SET64(v9, 80, 0u);
SET64(v9, 88, 0u);
if (a2 == 0) goto L2;
v13 = a5 + 1u;
a5 = a2 - 1u;
if (a5 == 0) goto L5;
a2 = a1;
L6:;
a2 = a2 + 192u;
i0 = in_mm_memory_recording_leads_to(RUD_AS a3, a4, v13, a2);
if (i0) goto L5;
a7 = a7 + 1u;
if (a5 != a7) goto L6;
goto L4;
L5:;
if (a5 != a7) goto L3;
L4:;
SET64(v9, 120, v10);
SET64(v9, 112, v11);
SET16(v9, 110, v17);
SET16(v9, 108, v14);
SET16(v9, 106, v15);
SET8(v9, 105, v18);
SET8(v9, 104, v16);
SET64(v9, 96, v12);
in_mm_memory_recording_offer_one(RUD_AS v9 + 128u, a1, a6, v9 + 96u, a8);
RUD_AGAIN
TEST(a0);
SET8(a0, 0, 0u);
SET32(a0, 12, AT32(v9, 136));
SET64(a0, 4, AT64(v9, 128));
goto L1;
L3:;
TEST(v10);
a2 = AT64(v10, 0);
if (a2 <= 9223372036854775806ull) {
SET64(v10, 0, a2 + 1u);
j0 = v10;
goto L7;
}
in_mm_packet_octets_Octets_of(RUD_AS v9, AT64(v10, 8), AT64(v10, 16));
RUD_AGAIN
v19 = AT8(v9, 0);
j0 = AT64(v9, 8);
L7:;
a2 = j0;
if (v19 == 0) {
SET64(v9, 64, v11);
SET16(v9, 62, 0u);
SET16(v9, 60, v14);
SET16(v9, 58, v15);
SET64(v9, 48, v12);
SET64(v9, 72, a2);
SET16(v9, 56, v16);
in_mm_memory_recording_offer_from_first(RUD_AS v9 + 80u, (a1 + 192u) + (a7 * 192u), a5 - a7, a3, a4, v13, a6, v9 + 48u, a8);
RUD_AGAIN
if (AT8(v9, 80)) goto L9;
SET64(v9, 40, v10);
SET64(v9, 32, v11);
SET16(v9, 30, v17);
SET16(v9, 28, v14);
SET16(v9, 26, v15);
SET8(v9, 25, v18);
SET8(v9, 24, v16);
SET64(v9, 16, v12);
v14 = AT32(v9, 84);
v15 = AT32(v9, 88);
v16 = AT32(v9, 92);
in_mm_memory_recording_offer_one(RUD_AS v9 + 144u, a1, a6, v9 + 16u, a8);
RUD_AGAIN
TEST(a0);
SET8(a0, 0, 0u);
SET32(a0, 12, v16 + AT32(v9, 152));
SET32(a0, 8, v15 + AT32(v9, 148));
SET32(a0, 4, v14 + AT32(v9, 144));
goto L1;
}
a1 = AT64(v10, 0);
SET64(v10, 0, a1 - 1u);
if (a1 != 1u) goto L11;
j0 = AT64(v10, 8);
j1 = AT64(v10, 24);
rud_dealloc(RUD_AS v10);
RUD_AGAIN
if (j1 == 0) goto L11;
rud_dealloc(RUD_AS j0);
RUD_AGAIN
L11:;
TEST(a0);
SET8(a0, 0, 1u);
SET32(a0, 12, 0u);
SET64(a0, 4, 0u);
goto L1;
L9:;
a1 = AT64(v10, 0);
SET64(v10, 0, a1 - 1u);
if (a1 != 1u) goto L12;
j0 = AT64(v10, 8);
j1 = AT64(v10, 24);
rud_dealloc(RUD_AS v10);
RUD_AGAIN
if (j1 == 0) goto L12;
rud_dealloc(RUD_AS j0);
RUD_AGAIN
L12:;
TEST(a0);
SET8(a0, 0, 1u);
SET32(a0, 12, 0u);
SET64(a0, 4, 0u);
goto L1;
L2:;
rud_trap();
L1:;
RUD_G0 = v9 + 160u;
}

static void in_rudlayog_memory_record(RUD_IT u64 a0, u64 a1, u64 a2, u64 a3, u64 a4, u64 a5) {
u32 v20 = 0, v21 = 0, v22 = 0, v23 = 0, v24 = 0, i0 = 0;
u64 v6 = 0, v7 = 0, v8 = 0, v9 = 0, v10 = 0, v11 = 0, v12 = 0, v13 = 0, v14 = 0, v15 = 0, v16 = 0, v17 = 0;
u64 v18 = 0, j0 = 0, j1 = 0, j2 = 0;
RUD_HERE
i0 = in_rattle_enter(RUD_AS0);
if (i0) {
rud_trap();
}
v6 = RUD_G0 - 304u;
RUD_G0 = v6;
if ((s64)v6 >= (s64)16u) {
TEST(a4);
SET32(a4, 8, 0u);
SET64(a4, 0, 0u);
v7 = a0 + 8u;
TEST(v7);
if (AT8(v7, 0) == 0) {
TEST(a5);
SET64(a5, 4, 0u);
SET32(a5, 0, 3u);
SET64(a5, 12, 0u);
SET64(a5, 20, 0u);
SET64(a5, 28, 0u);
SET64(a5, 36, 0u);
SET32(a5, 44, 0u);
goto L2;
}
SET8(v7, 0, 0u);
TEST(a0);
v7 = AT64(a0, 0);
TEST(v6);
SET16(v6, 140, 0u);
SET8(v6, 142, 0u);
SET64(v6, 120, 0u);
SET64(v6, 127, 0u);
SET16(v6, 116, 0u);
SET8(v6, 118, 0u);
SET64(v6, 96, 0u);
SET64(v6, 103, 0u);
SET64(v6, 288, 0u);
SET64(v6, 280, 0u);
SET64(v6, 272, 0u);
SET64(v6, 264, 0u);
SET64(v6, 256, 0u);
SET64(v6, 248, 0u);
SET64(v6, 240, 0u);
SET64(v6, 232, 0u);
in_mm_packet_lent_LentPacket_parse(RUD_AS v6 + 232u, a2 + (a2 == 0 ? 4096ull : 0ull), a3);
if (AT8(v6, 232)) goto L10;
if (!(AT64(v6, 288) == 0)) goto L9;
SET64(v6, 208, AT64(v6, 249));
SET64(v6, 216, AT64(v6, 257));
SET64(v6, 223, AT64(v6, 264));
a3 = AT64(v6, 272);
v20 = AT8(v6, 248);
if ((a3 + (v20 ? 21ull : 11ull)) > 1024u) goto L8;
a2 = AT64(v6, 240);
SET64(v6, 192, AT64(v6, 223));
SET64(v6, 185, AT64(v6, 216));
SET64(v6, 177, AT64(v6, 208));
SET64(v6, 200, a3);
SET8(v6, 176, v20);
SET64(v6, 168, a2);
SET64(v6, 264, 0u);
SET64(v6, 256, 0u);
SET64(v6, 248, 0u);
SET64(v6, 240, 0u);
SET64(v6, 232, 0u);
in_mm_packet_lent_LentPacket_packet_in_block(RUD_AS v6 + 232u, v6 + 168u);
RUD_AGAIN
if (AT8(v6, 232) == 0) {
v20 = AT16(v6, 242);
SET16(v6, 164, v20);
v21 = AT8(v6, 244);
SET8(v6, 166, v21);
SET64(v6, 144, AT64(v6, 249));
SET64(v6, 151, AT64(v6, 256));
SET16(v6, 140, v20);
SET8(v6, 142, v21);
v22 = AT16(v6, 240);
v20 = AT8(v6, 245);
v23 = AT8(v6, 246);
v24 = AT8(v6, 247);
v21 = AT8(v6, 248);
a3 = AT64(v6, 264);
SET64(v6, 127, AT64(v6, 151));
SET64(v6, 120, AT64(v6, 144));
goto L13;
}
SET8(v6, 166, 0u);
SET16(v6, 164, 0u);
SET64(v6, 144, 0u);
SET64(v6, 151, 0u);
SET64(v6, 264, 0u);
SET64(v6, 256, 0u);
SET64(v6, 248, 0u);
SET64(v6, 240, 0u);
SET64(v6, 232, 0u);
if (v20 == 0) {
v9 = v6 + 302u;
j0 = 0u;
goto L15;
}
in_mm_control_table_ControlTable_rows_for(RUD_AS v6 + 80u, v7 + 24u, (u32)a2, (u32)(a2 >> 40), (u32)(a2 >> 48));
v9 = AT64(v6, 80);
j0 = AT64(v6, 88);
L15:;
v11 = j0;
TEST(v7);
v13 = AT64(v7, 8);
if (v13 == 0) goto L17;
v10 = AT64(v7, 0);
L18:;
in_mm_memory_spare_given_up(RUD_AS v6 + 64u, v10 + 16u);
if (AT8(v6, 64) != 1u) goto L19;
v16 = AT64(v6, 72);
v12 = 0u;
i0 = in_mm_memory_recording_leads_to(RUD_AS v9, v11, 0u, v10);
if (i0 == 0) goto L19;
v8 = AT64(v7, 8);
TEST(v16);
v17 = GET64(AT64(v16, 24), 0);
a2 = AT64(v7, 0);
L20:;
v8 = 1ull - v8;
L21:;
if (v8 != 1u) {
i0 = in_mm_memory_recording_leads_to(RUD_AS v9, v11, 0u, a2);
if (i0 == 0) goto L22;
in_mm_memory_spare_given_up(RUD_AS v6 + 48u, a2 + 16u);
if (AT8(v6, 48) != 1u) goto L22;
v15 = AT64(v6, 56);
TEST(v15);
v18 = GET64(AT64(v15, 24), 0);
a3 = AT64(v16, 24);
TEST(a3);
v14 = AT64(a3, 0);
if (v14 <= 9223372036854775806ull) {
SET64(a3, 0, v14 + 1u);
i0 = 0u;
goto L24;
}
in_mm_packet_octets_Octets_of(RUD_AS v6 + 32u, AT64(a3, 8), AT64(a3, 16));
RUD_AGAIN
a3 = AT64(v6, 40);
i0 = AT8(v6, 32);
L24:;
if (i0 & 255u) goto L22;
TEST(a3);
v14 = AT64(a3, 0);
j0 = GET64(AT64(v15, 24), 0);
SET64(a3, 0, v14 - 1u);
if (v14 != 1u) goto L26;
j1 = AT64(a3, 8);
j2 = AT64(a3, 24);
rud_dealloc(RUD_AS a3);
RUD_AGAIN
if (j2 == 0) goto L26;
rud_dealloc(RUD_AS j1);
RUD_AGAIN
L26:;
if (j0 <= v18) goto L22;
v8 = 0ull - v8;
a2 = a2 + 192u;
v12 = v12 + 1u;
goto L20;
}
if (v12 >= v17) goto L17;
goto L19;
L22:;
a2 = a2 + 192u;
v8 = v8 + 1u;
goto L21;
rud_trap();
rud_trap();
L19:;
v10 = v10 + 192u;
v13 = v13 - 1u;
if (v13 != 0u) goto L18;
v8 = AT64(v7, 8);
if (v8 == 0) goto L17;
a2 = AT64(v7, 0);
L27:;
i0 = in_mm_memory_recording_leads_to(RUD_AS v9, v11, 0u, a2);
if (i0 == 0) goto L28;
in_mm_memory_spare_given_up(RUD_AS v6 + 16u, a2 + 16u);
if (AT8(v6, 16) == 1u) {
if (GET64(GET64(AT64(v6, 24), 24), 0) != 1u) goto L5;
goto L28;
}
TEST(a2);
if (AT8(a2, 120) != 1u) goto L28;
v20 = AT8(a2, 16);
if (GET64(a2 + (v20 ? 96ull : 40ull), 16) == 0xffffffffffffffffull) goto L28;
if (AT64(a2, 168) == 0xffffffffffffffffull) goto L28;
if (GET32(a2 + (v20 ? 40ull : 24ull), 16) != AT32(a2, 32)) goto L5;
L28:;
a2 = a2 + 192u;
v8 = v8 - 1u;
if (!(v8 == 0)) goto L27;
L17:;
in_mm_memory_spare_Spare_take(RUD_AS v6 + 232u, v7 + 128u, v6 + 168u);
RUD_AGAIN
SET16(v6, 116, AT16(v6, 242));
SET8(v6, 118, AT8(v6, 244));
SET64(v6, 96, AT64(v6, 249));
SET64(v6, 103, AT64(v6, 256));
if (AT8(v6, 232) != 1u) goto L5;
v22 = AT16(v6, 240);
v20 = AT8(v6, 245);
v23 = AT8(v6, 246);
v24 = AT8(v6, 247);
v21 = AT8(v6, 248);
a3 = AT64(v6, 264);
SET8(v6, 142, AT8(v6, 118));
SET16(v6, 140, AT16(v6, 116));
SET64(v6, 120, AT64(v6, 96));
SET64(v6, 127, AT64(v6, 103));
L13:;
if ((v21 & 255u) == 0) {
v9 = 0u;
j0 = v6 + 302u;
goto L30;
}
in_mm_control_table_ControlTable_rows_for(RUD_AS v6, v7 + 24u, v22, v20, v23);
v9 = AT64(v6, 8);
j0 = AT64(v6, 0);
L30:;
v12 = j0;
v10 = v7 + 128u;
a2 = 0u;
if (v9 == 0) {
TEST(a3);
a1 = AT64(a3, 0);
TEST(v10);
if (AT8(v10, 0) != 1u) {
if (a1 != 1u) {
SET64(a3, 0, a1 - 1u);
v20 = 0u;
goto L7;
}
SET16(v10, 8, v22);
SET64(v10, 0, 1u);
SET16(v10, 10, AT16(v6, 140));
SET8(v10, 12, AT8(v6, 142));
SET8(v10, 16, v21);
SET8(v10, 15, v24);
SET8(v10, 14, v23);
SET8(v10, 13, v20);
SET64(v10, 17, AT64(v6, 120));
SET64(v10, 24, AT64(v6, 127));
SET64(v10, 32, a3);
v20 = 0u;
goto L7;
}
SET64(a3, 0, a1 - 1u);
v20 = 0u;
if (a1 != 1u) goto L7;
j0 = AT64(a3, 8);
j1 = AT64(a3, 24);
rud_dealloc(RUD_AS a3);
RUD_AGAIN
if (j1 == 0) goto L7;
rud_dealloc(RUD_AS j0);
RUD_AGAIN
goto L7;
}
TEST(v7);
v11 = AT64(v7, 8);
v13 = AT64(v7, 0);
SET64(v6, 208, 0u);
SET64(v6, 216, 0u);
if (v11 == 0) goto L37;
v8 = v13 - 192u;
L38:;
v8 = v8 + 192u;
i0 = in_mm_memory_recording_leads_to(RUD_AS v12, v9, 0u, v8);
if (i0) goto L37;
a2 = a2 + 1u;
if (a2 != v11) goto L38;
goto L36;
L37:;
if (a2 != v11) goto L35;
L36:;
TEST(a3);
a1 = AT64(a3, 0);
if (AT8(v7, 128) != 1u) {
if (a1 != 1u) {
SET64(a3, 0, a1 - 1u);
v20 = 0u;
goto L7;
}
SET16(v7, 136, v22);
SET64(v7, 128, 1u);
SET16(v7, 138, AT16(v6, 140));
SET8(v7, 140, AT8(v6, 142));
SET8(v7, 144, v21);
SET8(v7, 143, v24);
SET8(v7, 142, v23);
SET8(v7, 141, v20);
SET64(v7, 145, AT64(v6, 120));
SET64(v7, 152, AT64(v6, 127));
SET64(v7, 160, a3);
v20 = 0u;
goto L7;
}
SET64(a3, 0, a1 - 1u);
v20 = 0u;
if (a1 != 1u) goto L7;
j0 = AT64(a3, 8);
j1 = AT64(a3, 24);
rud_dealloc(RUD_AS a3);
RUD_AGAIN
if (j1 == 0) goto L7;
rud_dealloc(RUD_AS j0);
RUD_AGAIN
goto L7;
L35:;
SET16(v6, 232, v22);
SET16(v6, 234, AT16(v6, 140));
SET8(v6, 236, AT8(v6, 142));
SET8(v6, 240, v21);
SET8(v6, 239, v24);
SET8(v6, 238, v23);
SET8(v6, 237, v20);
SET64(v6, 241, AT64(v6, 120));
SET64(v6, 248, AT64(v6, 127));
SET64(v6, 256, a3);
in_mm_memory_recording_offer_from_first(RUD_AS v6 + 208u, v13 + (a2 * 192u), v11 - a2, v12, v9, 0u, a1, v6 + 232u, v10);
RUD_AGAIN
if (AT8(v6, 208)) goto L5;
v21 = AT32(v6, 216);
v20 = AT32(v6, 212);
i0 = AT32(v6, 220);
goto L6;
}
rud_trap();
L10:;
a1 = (u64)(s64)(s8)AT8(v6, 233);
if (a1 == 0) goto L5;
i0 = in_mm_memory_spare_Spare_fill(RUD_AS v7 + 128u);
RUD_AGAIN
i0 = GET32((a1 << 2) + 4206004u, 0);
goto L4;
L9:;
i0 = in_mm_memory_spare_Spare_fill(RUD_AS v7 + 128u);
RUD_AGAIN
i0 = 49u;
goto L4;
L8:;
i0 = in_mm_memory_spare_Spare_fill(RUD_AS v7 + 128u);
RUD_AGAIN
i0 = 8u;
goto L4;
L7:;
v21 = 0u;
i0 = 0u;
L6:;
v22 = i0;
i0 = in_mm_memory_spare_Spare_fill(RUD_AS v10);
RUD_AGAIN
SET32(a4, 8, v22);
SET32(a4, 4, v21);
SET32(a4, 0, v20);
TEST(a5);
SET64(a5, 40, 0u);
SET64(a5, 32, 0u);
SET64(a5, 24, 0u);
SET64(a5, 16, 0u);
SET64(a5, 8, 0u);
SET64(a5, 0, 0u);
goto L3;
L5:;
a1 = v7 + 120u;
TEST(a1);
j0 = a1;
a1 = AT64(a1, 0) + 1u;
SET64(j0, 0, a1 == 0 ? 18446744073709551615ull : a1);
i0 = in_mm_memory_spare_Spare_fill(RUD_AS v7 + 128u);
RUD_AGAIN
i0 = 0u;
L4:;
v20 = i0;
TEST(a5);
SET64(a5, 12, 0u);
SET32(a5, 8, v20);
SET64(a5, 0, 2u);
SET64(a5, 20, 0u);
SET64(a5, 28, 0u);
SET64(a5, 36, 0u);
SET32(a5, 44, 0u);
L3:;
SET64(a0, 0, v7);
SET8(a0, 8, 1u);
L2:;
RUD_G0 = v6 + 304u;
RUD_G1 = 0u;
}

static void in_byn_mgfn_shared_rudlayog_memory_refused(RUD_IT u64 a0, u64 a1, u64 a2, u64 a3) {
u32 i0 = 0;
u64 v4 = 0, j0 = 0;
RUD_HERE
i0 = in_rattle_enter(RUD_AS0);
if (i0) {
rud_trap();
}
if ((s64)RUD_G0 >= (s64)16u) {
TEST(a1);
SET64(a1, 0, 0u);
v4 = a0 + 8u;
TEST(v4);
if (AT8(v4, 0)) goto L3;
TEST(a2);
SET32(a2, 0, 3u);
FILL_FEW(a2 + 4u, 0u, 44u);
goto L2;
}
rud_trap();
L3:;
SET8(v4, 0, 0u);
TEST(a0);
j0 = a1;
a1 = AT64(a0, 0);
SET64(j0, 0, GET64(a1 + a3, 0));
FILL_FEW(a2, 0u, 48u);
SET64(a0, 0, a1);
SET8(v4, 0, 1u);
L2:;
RUD_G1 = 0u;
}

static void in_rudlayog_memory_refused(RUD_IT u64 a0, u64 a1, u64 a2) {
RUD_NONE
in_byn_mgfn_shared_rudlayog_memory_refused(RUD_AS a0, a1, a2, 120u);
}

static void in_mm_packet_octets_Octets_new(RUD_IT u64 a0, u64 a1) {
u64 v2 = 0, v3 = 0, v4 = 0;
RUD_HERE
v2 = RUD_G0 - 48u;
RUD_G0 = v2;
if ((s64)v2 >= (s64)16u) {
TEST(a1);
v4 = AT64(a1, 0);
TEST(v2);
SET64(v2, 24, AT64(a1, 16));
SET64(v2, 16, AT64(a1, 8));
SET64(v2, 40, 0u);
SET64(v2, 32, 0u);
rud_alloc(RUD_AS v2 + 32u, 32u, 8u);
RUD_AGAIN
if (AT8(v2, 32) & 1u) {
a1 = AT64(v2, 40);
TEST(a1);
SET64(a1, 8, v4);
SET64(a1, 0, 1u);
SET64(a1, 16, AT64(v2, 16));
SET64(a1, 24, AT64(v2, 24));
TEST(a0);
SET64(a0, 24, 0u);
SET64(a0, 16, 0u);
goto L1;
}
a1 = AT64(v2, 24);
SET64(v2, 8, a1);
v3 = AT64(v2, 16);
SET64(v2, 0, v3);
TEST(a0);
SET64(a0, 24, a1);
SET64(a0, 16, v3);
v3 = 1u;
a1 = v4;
goto L1;
}
rud_trap();
L1:;
SET64(a0, 0, v3);
SET64(a0, 8, a1);
RUD_G0 = v2 + 48u;
}

static u32 in_std_alloc_vec_Vec_grow_amortized_36cfbfb62fbfaf15(RUD_IT u64 a0, u64 a1) {
u32 v6 = 0, v7 = 0;
u64 v2 = 0, v3 = 0, v4 = 0, v5 = 0, j0 = 0;
RUD_HERE
v2 = RUD_G0 - 32u;
RUD_G0 = v2;
if ((s64)v2 >= (s64)16u) {
TEST(a0);
v4 = AT64(a0, 8);
if (a1 > (v4 ^ 0xffffffffffffffffull)) goto L2;
a1 = a1 + v4;
v3 = a1 > 8u ? a1 : 8ull;
v5 = AT64(a0, 16);
a1 = v5 << 1;
a1 = a1 < v3 ? v3 : a1;
v3 = v5 < 4611686018427387904ull ? a1 : v3;
if ((s64)v3 < (s64)0u) goto L2;
if (!(v5 == 0)) {
in_std_heap_GlobalAllocator_grow_i8(RUD_AS v2 + 16u, AT64(a0, 0), v4, v3);
RUD_AGAIN
TEST(v2);
v7 = AT8(v2, 16);
j0 = AT64(v2, 24);
goto L3;
}
in_std_heap_GlobalAllocator_allocate(RUD_AS v2, a1, 1u);
RUD_AGAIN
TEST(v2);
v7 = AT8(v2, 0);
j0 = v7 ? 0ull : AT64(v2, 8);
L3:;
a1 = j0;
if (v7) goto L2;
SET64(a0, 16, v3);
SET64(a0, 0, a1);
v6 = 1u;
L2:;
RUD_G0 = v2 + 32u;
return v6;
}
rud_trap();
return 0;
}

static u32 in_std_alloc_vec_Vec_extend_from_slice_34a1715acbac7a48(RUD_IT u64 a0, u64 a1, u64 a2) {
u32 i0 = 0, i1 = 0;
u64 v3 = 0, v4 = 0, v5 = 0, v6 = 0, v7 = 0;
RUD_HERE
v6 = RUD_G0;
if ((s64)v6 >= (s64)16u) {
TEST(a0);
v5 = AT64(a0, 16);
v4 = a0 + 8u;
v3 = AT64(a0, 8);
if ((v5 - v3) < a2) {
i1 = in_std_alloc_vec_Vec_grow_amortized_36cfbfb62fbfaf15(RUD_AS a0, a2);
RUD_AGAIN
if (i1 == 0) { i0 = 1u; goto L2; }
v5 = AT64(a0, 16);
v3 = AT64(a0, 8);
}
SET64(a0, 8, 0u);
SET64(a0, 16, 0u);
v4 = a2 + v3;
v7 = AT64(a0, 0);
v3 = v7 + v3;
if (a2 <= (v3 - a1)) {
if (a2 == 0) goto L4;
COPY(v3, a1, a2);
goto L4;
}
L6:;
TEST(a1);
TEST(v3);
SET8(v3, 0, AT8(a1, 0));
v3 = v3 + 1u;
a1 = a1 + 1u;
a2 = a2 - 1u;
if (a2 != 0u) goto L6;
L4:;
SET64(a0, 0, v7);
SET64(a0, 16, v5);
SET64(a0, 8, v4);
i0 = 0u;
L2:;
RUD_G0 = v6;
return i0;
}
rud_trap();
return 0;
}

static u32 in_std_alloc_vec_Vec_push_36cfbfb62fbfaf15(RUD_IT u64 a0, u32 a1) {
u32 i0 = 0, i1 = 0;
u64 v2 = 0, v3 = 0, v4 = 0;
RUD_HERE
v3 = RUD_G0;
if ((s64)v3 >= (s64)16u) {
v4 = a0 + 8u;
TEST(v4);
v2 = AT64(v4, 0);
if (v2 == AT64(v4, 8)) {
i1 = in_std_alloc_vec_Vec_grow_amortized_36cfbfb62fbfaf15(RUD_AS a0, 1u);
RUD_AGAIN
if (i1 == 0) { i0 = 1u; goto L2; }
v2 = AT64(v4, 0);
}
TEST(a0);
PUT8(AT64(a0, 0) + v2, 0, a1);
SET64(v4, 0, v2 + 1u);
i0 = 0u;
L2:;
RUD_G0 = v3;
return i0;
}
rud_trap();
return 0;
}

static void in_core_int_u64_to_be_bytes(RUD_IT u64 a0, u64 a1) {
u64 j1 = 0;
RUD_HERE
if ((s64)RUD_G0 >= (s64)16u) {
j1 = (((a1 << 56) | ((a1 & 65280u) << 40)) | (((a1 & 16711680u) << 24) | ((a1 & 4278190080u) << 8))) | ((((a1 >> 8) & 4278190080u) | ((a1 >> 24) & 16711680u)) | (((a1 >> 40) & 65280u) | (a1 >> 56)));
TEST(a0);
SET64(a0, 0, j1);
return;
}
rud_trap();
}

static void in_mm_st15_counted_counted_octets_93728722e2cdf027(RUD_IT u64 a0, u64 a1) {
u32 v4 = 0, i0 = 0;
u64 v2 = 0, v3 = 0;
RUD_HERE
v2 = RUD_G0 - 48u;
RUD_G0 = v2;
if ((s64)v2 >= (s64)16u) {
TEST(v2);
SET64(v2, 16, 0u);
SET64(v2, 24, 0u);
v3 = a1 + 8u;
TEST(v3);
v4 = AT8(v3, 0);
SET64(v2, 8, v2 + 47u);
i0 = in_std_alloc_vec_Vec_push_36cfbfb62fbfaf15(RUD_AS v2 + 8u, v4);
RUD_AGAIN
if ((i0 & 255u) == 0) {
v3 = AT64(v3, 0);
if (v3 == 0) goto L3;
TEST(a1);
a1 = AT64(a1, 0);
L5:;
i0 = in_std_alloc_vec_Vec_extend_from_slice_34a1715acbac7a48(RUD_AS v2 + 8u, a1, 8u);
RUD_AGAIN
if (i0 & 255u) goto L6;
TEST(a1);
v4 = AT32(a1, 8);
SET32(v2, 40, rud_rotr32((v4 & 16711935u), 8u) | (rud_rotr32(v4, 24u) & 16711935u));
i0 = in_std_alloc_vec_Vec_extend_from_slice_34a1715acbac7a48(RUD_AS v2 + 8u, v2 + 40u, 4u);
RUD_AGAIN
if (i0 & 255u) goto L6;
SET16(v2, 38, AT16(a1, 12));
i0 = in_std_alloc_vec_Vec_extend_from_slice_34a1715acbac7a48(RUD_AS v2 + 8u, v2 + 38u, 2u);
RUD_AGAIN
if (i0 & 255u) goto L6;
a1 = a1 + 16u;
v3 = v3 - 1u;
if (!(v3 == 0)) goto L5;
goto L3;
L6:;
if (!(AT64(v2, 24) == 0)) {
rud_dealloc(RUD_AS AT64(v2, 8));
RUD_AGAIN
}
TEST(a0);
SET8(a0, 0, 1u);
SET64(a0, 8, 0u);
SET64(a0, 16, 0u);
SET64(a0, 24, 0u);
goto L1;
}
if (!(AT64(v2, 24) == 0)) {
rud_dealloc(RUD_AS AT64(v2, 8));
RUD_AGAIN
}
TEST(a0);
SET8(a0, 0, 1u);
SET64(a0, 8, 0u);
SET64(a0, 16, 0u);
SET64(a0, 24, 0u);
goto L1;
L3:;
TEST(a0);
SET8(a0, 0, 0u);
SET64(a0, 8, AT64(v2, 8));
SET64(a0, 16, AT64(v2, 16));
SET64(a0, 24, AT64(v2, 24));
goto L1;
}
rud_trap();
L1:;
RUD_G0 = v2 + 48u;
}

static void in_rudlayog_memory_report(RUD_IT u64 a0, u64 a1, u64 a2, u64 a3) {
u32 v14 = 0, v15 = 0, v16 = 0, i0 = 0;
u64 v4 = 0, v5 = 0, v6 = 0, v7 = 0, v8 = 0, v9 = 0, v10 = 0, v11 = 0, v12 = 0, v13 = 0, j0 = 0;
RUD_HERE
i0 = in_rattle_enter(RUD_AS0);
if (i0) {
rud_trap();
}
v4 = RUD_G0 - 240u;
RUD_G0 = v4;
if ((s64)v4 >= (s64)16u) {
v5 = a0 + 8u;
TEST(v5);
if (AT8(v5, 0) == 0) {
TEST(a3);
SET32(a3, 0, 3u);
FILL_FEW(a3 + 4u, 0u, 44u);
goto L2;
}
SET8(v5, 0, 0u);
TEST(a0);
v8 = AT64(a0, 0);
TEST(v4);
SET64(v4, 40, 0u);
SET64(v4, 32, 0u);
SET64(v4, 24, 0u);
SET64(v4, 16, 0u);
v9 = v8 + 72u;
TEST(v9);
v5 = AT64(v9, 0);
if (!(v5 == 0)) {
v12 = v8 + 64u;
TEST(v12);
v6 = AT64(v12, 0);
if (AT64(v9, 24) != v5) {
v6 = v6 + (AT64(v9, 16) * 56u);
}
TEST(v6);
v15 = AT16(v6, 2);
v16 = AT16(v6, 6);
v10 = (u64)AT16(v6, 4);
v11 = (u64)AT16(v6, 0);
SET64(v4, 104, 0u);
SET64(v4, 112, 0u);
SET64(v4, 120, 0u);
SET64(v4, 128, 0u);
SET32(v4, 48, 0u);
SET32(v4, 51, 0u);
v5 = (u64)AT8(v6, 8);
SET64(v4, 216, 0u);
SET64(v4, 208, 0u);
SET64(v4, 200, 0u);
SET64(v4, 192, 0u);
switch ((u32)v5 - 1u) {
case 0u: goto L17;
case 1u: goto L16;
case 2u: goto L15;
default: goto L18;
}
L18:;
SET64(v4, 176, 0u);
SET64(v4, 184, 0u);
SET64(v4, 168, v4 + 232u);
i0 = in_std_alloc_vec_Vec_extend_from_slice_34a1715acbac7a48(RUD_AS v4 + 168u, v6 + 24u, 8u);
RUD_AGAIN
if ((i0 & 255u) == 0) {
v5 = v6 + 40u;
v14 = AT16(v6, 40);
SET16(v4, 144, (v14 << 8) | (v14 >> 8));
i0 = in_std_alloc_vec_Vec_extend_from_slice_34a1715acbac7a48(RUD_AS v4 + 168u, v4 + 144u, 2u);
RUD_AGAIN
if (i0 & 255u) goto L6;
v7 = AT64(v6, 40);
if (v7 == 0) goto L19;
v5 = AT64(v6, 32);
goto L20;
}
goto L6;
L20:;
L22:;
TEST(v5);
v14 = AT16(v5, 0);
SET16(v4, 160, (v14 << 8) | (v14 >> 8));
i0 = in_std_alloc_vec_Vec_extend_from_slice_34a1715acbac7a48(RUD_AS v4 + 168u, v4 + 160u, 2u);
RUD_AGAIN
if (i0 & 255u) goto L23;
SET16(v4, 152, AT16(v5, 2));
i0 = in_std_alloc_vec_Vec_extend_from_slice_34a1715acbac7a48(RUD_AS v4 + 168u, v4 + 152u, 2u);
RUD_AGAIN
if (i0 & 255u) goto L23;
v5 = v5 + 4u;
v7 = v7 - 1u;
if (!(v7 == 0)) goto L22;
goto L19;
L23:;
goto L6;
L19:;
SET64(v4, 216, AT64(v4, 184));
SET64(v4, 208, AT64(v4, 176));
SET64(v4, 200, AT64(v4, 168));
i0 = 0u;
goto L5;
L17:;
SET64(v4, 176, 0u);
SET64(v4, 184, 0u);
v5 = v6 + 32u;
v14 = AT8(v6, 32);
SET64(v4, 168, v4 + 232u);
i0 = in_std_alloc_vec_Vec_push_36cfbfb62fbfaf15(RUD_AS v4 + 168u, v14);
RUD_AGAIN
if ((i0 & 255u) == 0) {
v7 = AT64(v6, 32);
if (v7 == 0) goto L24;
v5 = AT64(v6, 24);
L26:;
SET64(v4, 160, 0u);
i0 = in_std_alloc_vec_Vec_extend_from_slice_34a1715acbac7a48(RUD_AS v4 + 168u, v5, 8u);
RUD_AGAIN
if (i0 & 255u) goto L27;
TEST(v5);
in_core_int_u64_to_be_bytes(RUD_AS v4 + 160u, AT64(v5, 8));
SET64(v4, 152, AT64(v4, 160));
i0 = in_std_alloc_vec_Vec_extend_from_slice_34a1715acbac7a48(RUD_AS v4 + 168u, v4 + 152u, 8u);
RUD_AGAIN
if (i0 & 255u) goto L27;
in_core_int_u64_to_be_bytes(RUD_AS v4 + 160u, AT64(v5, 16));
SET64(v4, 144, AT64(v4, 160));
i0 = in_std_alloc_vec_Vec_extend_from_slice_34a1715acbac7a48(RUD_AS v4 + 168u, v4 + 144u, 8u);
RUD_AGAIN
if (i0 & 255u) goto L27;
v14 = AT32(v5, 24);
SET32(v4, 140, rud_rotr32((v14 & 16711935u), 8u) | (rud_rotr32(v14, 24u) & 16711935u));
i0 = in_std_alloc_vec_Vec_extend_from_slice_34a1715acbac7a48(RUD_AS v4 + 168u, v4 + 140u, 4u);
RUD_AGAIN
if (i0 & 255u) goto L27;
v5 = v5 + 32u;
v7 = v7 - 1u;
if (!(v7 == 0)) goto L26;
goto L24;
L27:;
goto L8;
}
goto L8;
L24:;
SET64(v4, 216, AT64(v4, 184));
SET64(v4, 208, AT64(v4, 176));
SET64(v4, 200, AT64(v4, 168));
i0 = 0u;
goto L7;
L16:;
SET64(v4, 176, 0u);
SET64(v4, 184, 0u);
v5 = v6 + 32u;
v14 = AT8(v6, 32);
SET64(v4, 168, v4 + 232u);
i0 = in_std_alloc_vec_Vec_push_36cfbfb62fbfaf15(RUD_AS v4 + 168u, v14);
RUD_AGAIN
if ((i0 & 255u) == 0) {
v7 = AT64(v6, 32);
if (v7 == 0) goto L28;
v5 = AT64(v6, 24);
L30:;
i0 = in_std_alloc_vec_Vec_extend_from_slice_34a1715acbac7a48(RUD_AS v4 + 168u, v5, 8u);
RUD_AGAIN
if (i0 & 255u) goto L31;
TEST(v5);
SET16(v4, 160, AT16(v5, 8));
i0 = in_std_alloc_vec_Vec_extend_from_slice_34a1715acbac7a48(RUD_AS v4 + 168u, v4 + 160u, 2u);
RUD_AGAIN
if (i0 & 255u) goto L31;
v5 = v5 + 10u;
v7 = v7 - 1u;
if (!(v7 == 0)) goto L30;
goto L28;
L31:;
goto L10;
}
goto L10;
L28:;
SET64(v4, 216, AT64(v4, 184));
SET64(v4, 208, AT64(v4, 176));
SET64(v4, 200, AT64(v4, 168));
i0 = 0u;
goto L9;
L15:;
in_mm_st15_counted_counted_octets_93728722e2cdf027(RUD_AS v4 + 192u, v6 + 24u);
RUD_AGAIN
v14 = AT8(v4, 192);
j0 = 6490417138761728ull;
goto L4;
}
v14 = 5u;
goto L3;
}
rud_trap();
L10:;
if (!(AT64(v4, 184) == 0)) {
rud_dealloc(RUD_AS AT64(v4, 168));
RUD_AGAIN
}
SET64(v4, 216, 0u);
SET64(v4, 208, 0u);
SET64(v4, 200, 0u);
i0 = 1u;
L9:;
v14 = i0;
j0 = 5364517231919104ull;
goto L4;
L8:;
if (!(AT64(v4, 184) == 0)) {
rud_dealloc(RUD_AS AT64(v4, 168));
RUD_AGAIN
}
SET64(v4, 216, 0u);
SET64(v4, 208, 0u);
SET64(v4, 200, 0u);
i0 = 1u;
L7:;
v14 = i0;
j0 = 3675667371655168ull;
goto L4;
L6:;
if (!(AT64(v4, 184) == 0)) {
rud_dealloc(RUD_AS AT64(v4, 168));
RUD_AGAIN
}
SET64(v4, 216, 0u);
SET64(v4, 208, 0u);
SET64(v4, 200, 0u);
i0 = 1u;
L5:;
v14 = i0;
j0 = 1705342534680576ull;
L4:;
v13 = j0;
SET64(v4, 71, AT64(v4, 216));
SET64(v4, 63, AT64(v4, 208));
SET64(v4, 55, AT64(v4, 200));
if (v14) goto L36;
v5 = v4 + 55u;
SET64(v4, 96, AT64(v4, 71));
SET64(v4, 88, AT64(v4, 63));
SET64(v4, 80, AT64(v4, 55));
in_mm_packet_octets_Octets_new(RUD_AS v4 + 104u, v4 + 80u);
RUD_AGAIN
v7 = AT64(v4, 112);
if (AT8(v4, 104) == 0) goto L35;
if (AT64(v4, 128) == 0) goto L36;
rud_dealloc(RUD_AS v7);
RUD_AGAIN
L36:;
v6 = 0u;
v14 = 2u;
goto L3;
L35:;
SET64(v4, 40, v7);
SET16(v4, 30, 0u);
SET16(v4, 28, v15);
SET16(v4, 26, v16);
v14 = 1u;
SET16(v4, 24, 1u);
SET64(v4, 32, AT64(v6, 16));
SET64(v4, 16, (v13 | (v10 << 16)) | v11);
in_mm_packet_packet_Packet_write_to(RUD_AS v4, v4 + 16u, a1 + (a1 == 0 ? 4096ull : 0ull), a2);
v6 = AT64(v4, 8);
if (AT8(v4, 0) == 0) {
v5 = 0u;
a2 = AT64(v9, 0);
if (a2 == 0) {
v14 = 0u;
v15 = 1u;
v16 = 1u;
v10 = 0u;
goto L40;
}
a1 = v8 + 96u;
if (a2 != AT64(v9, 24)) {
j0 = AT64(v9, 16);
goto L42;
}
SET64(v9, 24, 0u);
j0 = 0u;
L42:;
a1 = j0;
v11 = a2 - 1u;
SET64(v9, 0, v11);
SET64(v9, 16, a1 + 1u);
a1 = AT64(v12, 0) + (a1 * 56u);
TEST(a1);
v5 = AT64(a1, 32);
v10 = AT64(a1, 24);
v14 = AT8(a1, 8);
v15 = AT64(a1, 48) == 0;
v16 = AT64(a1, 40) == 0;
if (!(v11 == 0)) goto L39;
L40:;
if (AT64(v9, 8) >= 511u) {
a1 = v4 + 192u;
COPY_FEW(a1, v12, 40u);
SET64(v9, 0, 0u);
SET64(v9, 8, 0u);
SET64(v9, 16, 0u);
SET64(v9, 24, 0u);
SET64(v12, 0, v4 + 232u);
in_std_alloc_vec_deque_VecDeque_drop_37450415a5268579(RUD_AS a1);
RUD_AGAIN
}
if (a2 == 0) goto L38;
L39:;
switch ((u32)((u64)v14 & 255u) - 1u) {
case 0u: case 1u: case 2u: goto L45;
default: goto L46;
}
L46:;
if (v15) goto L38;
rud_dealloc(RUD_AS v5);
RUD_AGAIN
goto L38;
L45:;
if (v16) goto L38;
rud_dealloc(RUD_AS v10);
RUD_AGAIN
L38:;
in_std_alloc_arc_Arc_drop_c3b6ee2ab0dfb523(RUD_AS v7);
RUD_AGAIN
v14 = 0u;
goto L3;
}
in_std_alloc_arc_Arc_drop_c3b6ee2ab0dfb523(RUD_AS v7);
RUD_AGAIN
L3:;
TEST(a3);
SET32(a3, 0, v14);
FILL_FEW(a3 + 4u, 0u, 36u);
SET64(a3, 40, v6);
SET64(a0, 0, v8);
SET8(a0, 8, 1u);
L2:;
RUD_G0 = v4 + 240u;
RUD_G1 = 0u;
}

static void in_rudlayog_memory_waiting(RUD_IT u64 a0, u64 a1, u64 a2) {
RUD_NONE
in_byn_mgfn_shared_rudlayog_memory_refused(RUD_AS a0, a1, a2, 72u);
}

static u32 in_std_alloc_vec_Vec_move_to_793b26389ee8d11a(RUD_IT u64 a0, u64 a1) {
u32 v4 = 0, v5 = 0;
u64 v2 = 0, v3 = 0, j0 = 0;
RUD_HERE
v2 = RUD_G0 - 32u;
RUD_G0 = v2;
if ((s64)v2 >= (s64)16u) {
if (a1 >= 2305843009213693952ull) goto L2;
TEST(a0);
if (!(AT64(a0, 16) == 0)) {
in_std_heap_GlobalAllocator_grow_26_mm_st15_report_entry_Row(RUD_AS v2 + 16u, AT64(a0, 0), AT64(a0, 8), a1);
RUD_AGAIN
TEST(v2);
v5 = AT8(v2, 16);
j0 = AT64(v2, 24);
goto L3;
}
in_std_heap_GlobalAllocator_allocate(RUD_AS v2, a1 << 2, 2u);
RUD_AGAIN
TEST(v2);
v5 = AT8(v2, 0);
j0 = v5 ? 0ull : AT64(v2, 8);
L3:;
v3 = j0;
if (v5) goto L2;
SET64(a0, 16, a1);
SET64(a0, 0, v3);
v4 = 1u;
L2:;
RUD_G0 = v2 + 32u;
return v4;
}
rud_trap();
return 0;
}

static u32 in_std_alloc_vec_Vec_move_to_eb01d801ebda492b(RUD_IT u64 a0, u64 a1) {
u32 v4 = 0, v5 = 0;
u64 v2 = 0, v3 = 0, j0 = 0;
RUD_HERE
v2 = RUD_G0 - 32u;
RUD_G0 = v2;
if ((s64)v2 >= (s64)16u) {
if (a1 >= 288230376151711744ull) goto L2;
TEST(a0);
if (!(AT64(a0, 16) == 0)) {
in_std_heap_GlobalAllocator_grow_30_mm_st15_report_entry_Summary(RUD_AS v2 + 16u, AT64(a0, 0), AT64(a0, 8), a1);
RUD_AGAIN
TEST(v2);
v5 = AT8(v2, 16);
j0 = AT64(v2, 24);
goto L3;
}
in_std_heap_GlobalAllocator_allocate(RUD_AS v2, a1 << 5, 8u);
RUD_AGAIN
TEST(v2);
v5 = AT8(v2, 0);
j0 = v5 ? 0ull : AT64(v2, 8);
L3:;
v3 = j0;
if (v5) goto L2;
SET64(a0, 16, a1);
SET64(a0, 0, v3);
v4 = 1u;
L2:;
RUD_G0 = v2 + 32u;
return v4;
}
rud_trap();
return 0;
}

static u32 in_std_alloc_vec_Vec_move_to_9a5edca6e6a5417b(RUD_IT u64 a0, u64 a1) {
u32 v4 = 0, v5 = 0;
u64 v2 = 0, v3 = 0, j0 = 0;
RUD_HERE
v2 = RUD_G0 - 32u;
RUD_G0 = v2;
if ((s64)v2 >= (s64)16u) {
if (a1 >= 922337203685477581ull) goto L2;
TEST(a0);
if (!(AT64(a0, 16) == 0)) {
in_std_heap_GlobalAllocator_grow_29_mm_st15_report_entry_Status(RUD_AS v2 + 16u, AT64(a0, 0), AT64(a0, 8), a1);
RUD_AGAIN
TEST(v2);
v5 = AT8(v2, 16);
j0 = AT64(v2, 24);
goto L3;
}
in_std_heap_GlobalAllocator_allocate(RUD_AS v2, a1 * 10u, 1u);
RUD_AGAIN
TEST(v2);
v5 = AT8(v2, 0);
j0 = v5 ? 0ull : AT64(v2, 8);
L3:;
v3 = j0;
if (v5) goto L2;
SET64(a0, 16, a1);
SET64(a0, 0, v3);
v4 = 1u;
L2:;
RUD_G0 = v2 + 32u;
return v4;
}
rud_trap();
return 0;
}

static void in_rudlayog_report_read(RUD_IT u64 a0, u64 a1, u64 a2, u64 a3, u64 a4, u64 a5) {
u32 v18 = 0, v19 = 0, v20 = 0, v21 = 0, v22 = 0, v23 = 0, i0 = 0, i1 = 0, i2 = 0;
u64 v6 = 0, v7 = 0, v8 = 0, v9 = 0, v10 = 0, v11 = 0, v12 = 0, v13 = 0, v14 = 0, v15 = 0, v16 = 0, v17 = 0;
u64 j0 = 0, j1 = 0, j2 = 0, j3 = 0;
RUD_HERE
i0 = in_rattle_enter(RUD_AS0);
if (i0) {
rud_trap();
}
v7 = a3;
v13 = a4;
v6 = RUD_G0 - 256u;
RUD_G0 = v6;
if ((s64)v6 < (s64)16u) goto L4;
TEST(v6);
SET8(v6, 94, 0u);
SET16(v6, 92, 0u);
FILL_FEW(v6 + 56u, 0u, 36u);
FILL_FEW(v6 + 8u, 0u, 48u);
a3 = v6 + 96u;
FILL_FEW(a3, 0u, 40u);
in_mm_ask_line_packet_alone(RUD_AS a3, a0 + (a0 == 0 ? 4096ull : 0ull), a1);
RUD_AGAIN
if (AT8(v6, 96) == 0) {
v19 = 3u;
v18 = 1u;
v12 = AT64(v6, 128);
j0 = a5;
j1 = v13;
if (AT8(v6, 112) == 0) goto L17;
if (AT8(v6, 109) != 15u) goto L17;
v10 = (u64)AT32(v6, 104) | ((u64)AT8(v6, 108) << 32);
v20 = AT16(v6, 116);
v21 = AT16(v6, 114);
v15 = AT64(v6, 120);
v18 = 2u;
v22 = AT8(v6, 110);
switch (v22 - 19u) {
case 0u: goto L21;
case 1u: case 2u: case 3u: goto L17;
case 4u: goto L19;
default: goto L22;
}
L22:;
if (v22 != 13u) {
if (v22 != 6u) goto L17;
TEST(v12);
a0 = AT64(v12, 16);
if ((u32)(a0 < 8u) | (u32)(a0 < 10u)) goto L18;
a1 = a0 - 10u;
a0 = AT64(v12, 8);
TEST(a0);
v18 = AT16(a0, 8);
v9 = (u64)((v18 << 8) | (v18 >> 8)) & 65535u;
if (a1 != (v9 << 2)) goto L18;
a3 = AT64(a0, 0);
SET64(v6, 232, 0u);
SET64(v6, 240, 0u);
SET64(v6, 224, v6 + 248u);
if (v18 == 0) goto L16;
i2 = in_std_alloc_vec_Vec_move_to_793b26389ee8d11a(RUD_AS v6 + 224u, v9);
RUD_AGAIN
if (i2 == 0) {
if (AT64(v6, 240) == 0) goto L20;
rud_dealloc(RUD_AS AT64(v6, 224));
RUD_AGAIN
goto L20;
}
a0 = a0 + 10u;
a4 = AT64(v6, 240);
SET64(v6, 192, a4);
v8 = AT64(v6, 232);
SET64(v6, 184, v8);
v11 = AT64(v6, 224);
SET64(v6, 176, v11);
SET64(v6, 200, v11);
SET64(v6, 208, v8);
SET64(v6, 216, a4);
v8 = a1 >> 2;
L25:;
if (v8 == 0) goto L4;
TEST(a0);
v19 = AT16(a0, 0);
v22 = AT8(a0, 2);
v23 = AT8(a0, 3);
a4 = AT64(v6, 208);
if (a4 == AT64(v6, 216)) {
a1 = v6 + 200u;
v18 = 0u;
v11 = RUD_G0;
if ((s64)v11 >= (s64)16u) {
a4 = AT64(v6, 208);
if (a4 == 0xffffffffffffffffull) goto L28;
a4 = (a4 > 3u ? a4 : 3ull) + 1u;
j2 = a1;
a1 = AT64(v6, 216);
v14 = a1 << 1;
v18 = in_std_alloc_vec_Vec_move_to_793b26389ee8d11a(RUD_AS j2, a1 < 4611686018427387904ull ? (a4 > v14 ? a4 : v14) : a4);
RUD_AGAIN
goto L28;
}
rud_trap();
L28:;
RUD_G0 = v11;
if (v18 == 0) goto L26;
a4 = AT64(v6, 208);
}
a1 = AT64(v6, 200);
PUT32(a1 + (a4 << 2), 0, ((((v19 << 8) | (v19 >> 8)) & 65535u) | (v22 << 16)) | (v23 << 24));
a4 = a4 + 1u;
SET64(v6, 208, a4);
a0 = a0 + 4u;
v8 = v8 - 1u;
v9 = v9 - 1u;
if (!(v9 == 0)) goto L25;
goto L15;
L26:;
if (AT64(v6, 216) == 0) goto L20;
rud_dealloc(RUD_AS AT64(v6, 200));
RUD_AGAIN
goto L20;
}
TEST(v12);
a0 = AT64(v12, 16);
if (a0 == 0) goto L18;
v9 = a0 - 1u;
a0 = AT64(v12, 8);
TEST(a0);
v18 = AT8(a0, 0);
v14 = (u64)v18 & 255u;
if (v9 != (v14 * 28u)) goto L18;
SET64(v6, 232, 0u);
SET64(v6, 240, 0u);
SET64(v6, 224, v6 + 248u);
if (v18 == 0) goto L14;
i2 = in_std_alloc_vec_Vec_move_to_eb01d801ebda492b(RUD_AS v6 + 224u, v14);
RUD_AGAIN
if (i2 == 0) {
if (AT64(v6, 240) == 0) goto L20;
rud_dealloc(RUD_AS AT64(v6, 224));
RUD_AGAIN
goto L20;
}
v8 = a0 + 1u;
a0 = AT64(v6, 240);
SET64(v6, 192, a0);
a1 = AT64(v6, 232);
SET64(v6, 184, a1);
a3 = AT64(v6, 224);
SET64(v6, 176, a3);
SET64(v6, 200, a3);
SET64(v6, 208, a1);
SET64(v6, 216, a0);
L31:;
if (v9 < 8u) goto L4;
a0 = v9 & 0xfffffffffffffff8ull;
if (((u32)(a0 == 8u) | (u32)(a0 == 16u)) | (u32)((v9 & 0xfffffffffffffffcull) == 24u)) goto L4;
TEST(v8);
v16 = AT64(v8, 0);
a0 = AT64(v8, 8);
a1 = AT64(v8, 16);
v19 = AT32(v8, 24);
a4 = AT64(v6, 208);
if (a4 == AT64(v6, 216)) {
a3 = v6 + 200u;
v18 = 0u;
v11 = RUD_G0;
if ((s64)v11 >= (s64)16u) {
a4 = AT64(v6, 208);
if (a4 == 0xffffffffffffffffull) goto L34;
a4 = (a4 > 3u ? a4 : 3ull) + 1u;
j2 = a3;
a3 = AT64(v6, 216);
v17 = a3 << 1;
v18 = in_std_alloc_vec_Vec_move_to_eb01d801ebda492b(RUD_AS j2, a3 < 4611686018427387904ull ? (a4 > v17 ? a4 : v17) : a4);
RUD_AGAIN
goto L34;
}
rud_trap();
L34:;
RUD_G0 = v11;
if (v18 == 0) goto L32;
a4 = AT64(v6, 208);
}
a3 = AT64(v6, 200);
v11 = a3 + (a4 << 5);
TEST(v11);
SET32(v11, 28, 0u);
SET32(v11, 24, (rud_rotr32(v19, 24u) & 16711935u) | rud_rotr32((v19 & 16711935u), 8u));
j3 = (((a1 << 56) | ((a1 & 65280u) << 40)) | (((a1 & 16711680u) << 24) | ((a1 & 4278190080u) << 8))) | ((((a1 >> 8) & 4278190080u) | ((a1 >> 24) & 16711680u)) | (((a1 >> 40) & 65280u) | (a1 >> 56)));
SET64(v11, 16, j3);
j3 = (((a0 << 56) | ((a0 & 65280u) << 40)) | (((a0 & 16711680u) << 24) | ((a0 & 4278190080u) << 8))) | ((((a0 >> 8) & 4278190080u) | ((a0 >> 24) & 16711680u)) | (((a0 >> 40) & 65280u) | (a0 >> 56)));
SET64(v11, 8, j3);
SET64(v11, 0, v16);
a1 = a4 + 1u;
SET64(v6, 208, a1);
v8 = v8 + 28u;
v9 = v9 - 28u;
v14 = v14 - 1u;
if (!(v14 == 0)) goto L31;
goto L13;
L32:;
if (AT64(v6, 216) == 0) goto L20;
rud_dealloc(RUD_AS AT64(v6, 200));
RUD_AGAIN
goto L20;
L21:;
TEST(v12);
a0 = AT64(v12, 16);
if (a0 == 0) goto L18;
a4 = a0 - 1u;
a0 = AT64(v12, 8);
TEST(a0);
v18 = AT8(a0, 0);
v9 = (u64)v18 & 255u;
if (a4 != (v9 * 10u)) goto L18;
SET64(v6, 232, 0u);
SET64(v6, 240, 0u);
SET64(v6, 224, v6 + 248u);
if (v18 == 0) goto L12;
i2 = in_std_alloc_vec_Vec_move_to_9a5edca6e6a5417b(RUD_AS v6 + 224u, v9);
RUD_AGAIN
if (i2 == 0) {
if (AT64(v6, 240) == 0) goto L20;
rud_dealloc(RUD_AS AT64(v6, 224));
RUD_AGAIN
goto L20;
}
a0 = a0 + 1u;
a1 = AT64(v6, 240);
SET64(v6, 192, a1);
a3 = AT64(v6, 232);
SET64(v6, 184, a3);
v8 = AT64(v6, 224);
SET64(v6, 176, v8);
SET64(v6, 200, v8);
SET64(v6, 208, a3);
SET64(v6, 216, a1);
L37:;
if (a4 <= 9u) goto L4;
TEST(a0);
v18 = AT8(a0, 9);
v22 = AT8(a0, 8);
v11 = AT64(a0, 0);
v8 = AT64(v6, 208);
if (v8 == AT64(v6, 216)) {
a1 = v6 + 200u;
v19 = 0u;
v8 = RUD_G0;
if ((s64)v8 >= (s64)16u) {
a3 = AT64(v6, 208);
if (a3 == 0xffffffffffffffffull) goto L40;
a3 = (a3 > 3u ? a3 : 3ull) + 1u;
j2 = a1;
a1 = AT64(v6, 216);
v14 = a1 << 1;
v19 = in_std_alloc_vec_Vec_move_to_9a5edca6e6a5417b(RUD_AS j2, a1 < 4611686018427387904ull ? (a3 > v14 ? a3 : v14) : a3);
RUD_AGAIN
goto L40;
}
rud_trap();
L40:;
RUD_G0 = v8;
if (v19 == 0) goto L38;
v8 = AT64(v6, 208);
}
a3 = AT64(v6, 200);
a1 = a3 + (v8 * 10u);
TEST(a1);
SET8(a1, 9, v18);
SET8(a1, 8, v22);
SET64(a1, 0, v11);
a1 = v8 + 1u;
SET64(v6, 208, a1);
a0 = a0 + 10u;
a4 = a4 - 10u;
v9 = v9 - 1u;
if (!(v9 == 0)) goto L37;
goto L11;
L38:;
if (AT64(v6, 216) == 0) goto L20;
rud_dealloc(RUD_AS AT64(v6, 200));
RUD_AGAIN
L20:;
v18 = 0u;
v19 = 0u;
goto L17;
L19:;
TEST(v12);
a0 = AT64(v12, 16);
a1 = AT64(v12, 8);
SET64(v6, 160, 0u);
SET64(v6, 152, 0u);
SET64(v6, 144, 0u);
SET64(v6, 136, 0u);
in_mm_st15_counted_counted_entries_93728722e2cdf027(RUD_AS v6 + 136u, 0u, a1, a0);
RUD_AGAIN
if (AT8(v6, 136) == 0) goto L10;
v18 = AT8(v6, 137);
v19 = v18 ? 3u : 0u;
goto L17;
L18:;
v18 = 3u;
L17:;
in_std_alloc_arc_Arc_drop_c3b6ee2ab0dfb523(RUD_AS v12);
RUD_AGAIN
goto L5;
L16:;
a0 = AT64(v6, 240);
SET64(v6, 192, a0);
a4 = AT64(v6, 232);
SET64(v6, 184, a4);
a1 = AT64(v6, 224);
SET64(v6, 176, a1);
SET64(v6, 200, a1);
SET64(v6, 208, a4);
SET64(v6, 216, a0);
L15:;
v18 = 0u;
TEST(a2);
j2 = AT64(v6, 216);
SET32(a2, 26, 0u);
SET8(a2, 25, 6u);
SET8(a2, 24, (u32)(v10 >> 32));
SET16(a2, 22, v20);
SET16(a2, 20, v21);
SET16(a2, 18, (u32)(v10 >> 16));
SET16(a2, 16, (u32)v10);
SET64(a2, 8, a3);
SET64(a2, 0, v15);
SET16(a2, 30, 0u);
v19 = j2 == 0;
j2 = a4;
goto L8;
L14:;
a0 = AT64(v6, 240);
SET64(v6, 192, a0);
a1 = AT64(v6, 232);
SET64(v6, 184, a1);
a3 = AT64(v6, 224);
SET64(v6, 176, a3);
SET64(v6, 200, a3);
SET64(v6, 208, a1);
SET64(v6, 216, a0);
L13:;
a4 = AT64(v6, 216);
TEST(a2);
SET32(a2, 26, 0u);
SET8(a2, 25, 13u);
SET8(a2, 24, (u32)(v10 >> 32));
SET16(a2, 22, v20);
SET16(a2, 20, v21);
SET16(a2, 18, (u32)(v10 >> 16));
SET16(a2, 16, (u32)v10);
SET64(a2, 8, 0u);
SET64(a2, 0, v15);
SET16(a2, 30, 0u);
v19 = 1u;
i2 = 1u;
goto L9;
L12:;
a0 = AT64(v6, 240);
SET64(v6, 192, a0);
a1 = AT64(v6, 232);
SET64(v6, 184, a1);
a3 = AT64(v6, 224);
SET64(v6, 176, a3);
SET64(v6, 200, a3);
SET64(v6, 208, a1);
SET64(v6, 216, a0);
L11:;
a4 = AT64(v6, 216);
TEST(a2);
SET32(a2, 26, 0u);
SET8(a2, 25, 19u);
SET8(a2, 24, (u32)(v10 >> 32));
SET16(a2, 22, v20);
SET16(a2, 20, v21);
SET16(a2, 18, (u32)(v10 >> 16));
SET16(a2, 16, (u32)v10);
SET64(a2, 8, 0u);
SET64(a2, 0, v15);
SET16(a2, 30, 0u);
v19 = 1u;
i2 = 2u;
goto L9;
L10:;
a4 = AT64(v6, 160);
a1 = AT64(v6, 152);
a3 = AT64(v6, 144);
TEST(a2);
SET32(a2, 26, 0u);
SET8(a2, 25, 23u);
SET8(a2, 24, (u32)(v10 >> 32));
SET16(a2, 22, v20);
SET16(a2, 20, v21);
SET16(a2, 18, (u32)(v10 >> 16));
SET16(a2, 16, (u32)v10);
SET64(a2, 8, 0u);
SET64(a2, 0, v15);
SET16(a2, 30, 0u);
v19 = 1u;
i2 = 3u;
L9:;
v18 = i2;
j2 = a1;
L8:;
v8 = j2;
if (j1 < v8) {
FILL_FEW(v6 + 56u, 0u, 36u);
i1 = 1u;
goto L7;
}
v7 = v7 + (v7 == 0 ? 4096ull : 0ull);
switch (v18 - 1u) {
case 0u: goto L46;
case 1u: goto L45;
case 2u: goto L44;
default: goto L47;
}
L47:;
if (a4 == 0) goto L43;
a0 = a1;
a2 = a4;
L48:;
TEST(a0);
v20 = AT32(a0, 0);
TEST(v7);
SET64(v7, 8, 0u);
SET64(v7, 16, 0u);
SET64(v7, 24, 0u);
SET32(v7, 36, 0u);
SET32(v7, 32, v20);
SET64(v7, 0, 0u);
a0 = a0 + 4u;
v7 = v7 + 40u;
a2 = a2 - 1u;
if (!(a2 == 0)) goto L48;
goto L43;
L46:;
if (a1 == 0) goto L43;
a0 = a3;
a2 = a1;
L49:;
TEST(a0);
v13 = AT64(a0, 8);
v9 = AT64(a0, 16);
v20 = AT32(a0, 24);
v10 = AT64(a0, 0);
TEST(v7);
SET64(v7, 28, 0u);
SET32(v7, 24, v20);
SET64(v7, 16, v9);
SET64(v7, 8, v13);
SET64(v7, 0, v10);
SET32(v7, 36, 0u);
a0 = a0 + 32u;
v7 = v7 + 40u;
a2 = a2 - 1u;
if (!(a2 == 0)) goto L49;
goto L43;
L45:;
if (a1 == 0) goto L43;
a0 = a3;
a2 = a1;
L50:;
TEST(a0);
v20 = AT16(a0, 8);
v13 = AT64(a0, 0);
TEST(v7);
SET64(v7, 8, 0u);
SET64(v7, 0, v13);
SET64(v7, 16, 0u);
SET64(v7, 24, 0u);
SET32(v7, 32, 0u);
SET16(v7, 38, 0u);
SET16(v7, 36, v20);
a0 = a0 + 10u;
v7 = v7 + 40u;
a2 = a2 - 1u;
if (!(a2 == 0)) goto L50;
goto L43;
L44:;
if (a1 == 0) goto L43;
a0 = a3;
a2 = a1;
L51:;
TEST(a0);
v20 = AT16(a0, 12);
v21 = AT32(a0, 8);
v13 = AT64(a0, 0);
TEST(v7);
SET64(v7, 8, 0u);
SET64(v7, 0, v13);
SET64(v7, 16, 0u);
SET32(v7, 24, 0u);
SET32(v7, 32, 0u);
SET32(v7, 28, v21);
SET16(v7, 36, 0u);
SET16(v7, 38, v20);
a0 = a0 + 16u;
v7 = v7 + 40u;
a2 = a2 - 1u;
if (a2 != 0u) goto L51;
L43:;
FILL_FEW(v6 + 56u, 0u, 36u);
i1 = 0u;
L7:;
TEST(j0);
SET32(j0, 0, i1);
COPY_FEW(a5 + 4u, v6 + 56u, 36u);
TEST(a5);
SET64(a5, 40, v8);
in_std_alloc_arc_Arc_drop_c3b6ee2ab0dfb523(RUD_AS v12);
RUD_AGAIN
switch (v18 - 1u) {
case 0u: goto L54;
case 1u: goto L53;
case 2u: goto L52;
default: goto L55;
}
L55:;
if (v19) goto L2;
rud_dealloc(RUD_AS a1);
RUD_AGAIN
goto L2;
L54:;
if (a4 == 0) goto L2;
goto L3;
L53:;
if (!(a4 == 0)) goto L3;
goto L2;
L52:;
if (!(a4 == 0)) goto L3;
goto L2;
}
v18 = AT8(v6, 98);
v19 = AT8(v6, 97);
L5:;
TEST(a2);
SET64(a2, 0, 0u);
SET64(a2, 8, 0u);
SET64(a2, 16, 0u);
SET64(a2, 24, 0u);
SET8(v6, 93, v19);
v19 = v19 & 255u;
SET8(v6, 94, v19 ? v18 : 0u);
SET8(v6, 92, v19 ? 5u : 0u);
a0 = v6 + 8u;
in_mm_c_memory_refused(RUD_AS a0, v6 + 92u);
COPY_FEW(a5, a0, 48u);
goto L2;
L4:;
rud_trap();
L3:;
rud_dealloc(RUD_AS a3);
RUD_AGAIN
L2:;
RUD_G0 = v6 + 256u;
RUD_G1 = 0u;
}

static void in_mm_service_instruction_fields_padded(RUD_IT u64 a0, u64 a1) {
u32 v3 = 0;
u64 v2 = 0;
RUD_HERE
v2 = RUD_G0 - 16u;
if ((s64)v2 >= (s64)16u) {
TEST(a1);
a1 = AT64(a1, 0);
TEST(v2);
SET64(v2, 8, a1);
SET64(v2, 0, a1);
a1 = 0u;
L2:;
v3 = GET8((v2 + 8u) + a1, 0);
PUT8(a1 + v2, 0, v3 ? v3 : 32u);
a1 = a1 + 1u;
if (a1 != 8u) goto L2;
TEST(a0);
SET64(a0, 0, AT64(v2, 0));
return;
}
rud_trap();
}

static void in_mm_service_instruction_fields_instructions_of_26e9ada56fdfd805(RUD_IT u64 a0, u64 a1, u64 a2) {
u32 v7 = 0, v8 = 0, v9 = 0, i0 = 0;
u64 v3 = 0, v4 = 0, v5 = 0, v6 = 0;
RUD_HERE
v3 = RUD_G0 - 96u;
RUD_G0 = v3;
if ((s64)v3 >= (s64)16u) {
TEST(v3);
SET64(v3, 64, 0u);
SET64(v3, 72, 0u);
SET64(v3, 56, v3 + 94u);
if (!(a2 == 0)) {
i0 = in_std_alloc_vec_Vec_move_to_98cf589476e368ff(RUD_AS v3 + 56u, a2);
RUD_AGAIN
if (i0 == 0) {
if (!(AT64(v3, 72) == 0)) {
rud_dealloc(RUD_AS AT64(v3, 56));
RUD_AGAIN
}
TEST(a0);
SET8(a0, 0, 1u);
SET64(a0, 8, 0u);
SET64(a0, 16, 0u);
SET64(a0, 24, 0u);
goto L1;
}
v5 = AT64(v3, 72);
SET64(v3, 24, v5);
v4 = AT64(v3, 64);
SET64(v3, 16, v4);
v6 = AT64(v3, 56);
SET64(v3, 8, v6);
SET64(v3, 32, v6);
SET64(v3, 40, v4);
SET64(v3, 48, v5);
L7:;
SET64(v3, 56, 0u);
TEST(a1);
SET64(v3, 80, AT64(a1, 0));
in_mm_service_instruction_fields_padded(RUD_AS v3 + 56u, v3 + 80u);
v7 = AT8(a1, 31);
v8 = AT8(a1, 30);
v9 = AT16(a1, 28);
v6 = AT64(v3, 56);
if (v4 == AT64(v3, 48)) {
i0 = in_std_alloc_vec_Vec_grow_amortized_98cf589476e368ff(RUD_AS v3 + 32u);
RUD_AGAIN
if (i0 == 0) goto L8;
v4 = AT64(v3, 40);
}
v5 = AT64(v3, 32) + (v4 * 12u);
TEST(v5);
SET8(v5, 11, v7);
SET8(v5, 10, v8);
SET16(v5, 8, v9);
SET64(v5, 0, v6);
v4 = v4 + 1u;
SET64(v3, 40, v4);
a1 = a1 + 40u;
a2 = a2 - 1u;
if (!(a2 == 0)) goto L7;
goto L3;
L8:;
if (!(AT64(v3, 48) == 0)) {
rud_dealloc(RUD_AS AT64(v3, 32));
RUD_AGAIN
}
TEST(a0);
SET8(a0, 0, 1u);
SET64(a0, 8, 0u);
SET64(a0, 16, 0u);
SET64(a0, 24, 0u);
goto L1;
}
v6 = AT64(v3, 72);
SET64(v3, 24, v6);
a2 = AT64(v3, 64);
SET64(v3, 16, a2);
a1 = AT64(v3, 56);
SET64(v3, 8, a1);
SET64(v3, 32, a1);
SET64(v3, 40, a2);
SET64(v3, 48, v6);
L3:;
TEST(a0);
SET8(a0, 0, 0u);
SET64(a0, 8, AT64(v3, 32));
SET64(a0, 16, AT64(v3, 40));
SET64(a0, 24, AT64(v3, 48));
goto L1;
}
rud_trap();
L1:;
RUD_G0 = v3 + 96u;
}

static void in_mm_service_instruction_fields_instructions_of_21ce33bb4e7b34ca(RUD_IT u64 a0, u64 a1, u64 a2) {
u32 i0 = 0;
u64 v3 = 0, v4 = 0, v5 = 0, v6 = 0;
RUD_HERE
v3 = RUD_G0 - 96u;
RUD_G0 = v3;
if ((s64)v3 >= (s64)16u) {
TEST(v3);
SET64(v3, 64, 0u);
SET64(v3, 72, 0u);
SET64(v3, 56, v3 + 95u);
if (!(a2 == 0)) {
i0 = in_std_alloc_vec_Vec_move_to_6469b56b2f1a679e(RUD_AS v3 + 56u, a2);
RUD_AGAIN
if (i0 == 0) {
if (!(AT64(v3, 72) == 0)) {
rud_dealloc(RUD_AS AT64(v3, 56));
RUD_AGAIN
}
TEST(a0);
SET8(a0, 0, 1u);
SET64(a0, 8, 0u);
SET64(a0, 16, 0u);
SET64(a0, 24, 0u);
goto L1;
}
v6 = AT64(v3, 72);
SET64(v3, 24, v6);
v4 = AT64(v3, 64);
SET64(v3, 16, v4);
v5 = AT64(v3, 56);
SET64(v3, 8, v5);
SET64(v3, 32, v5);
SET64(v3, 40, v4);
SET64(v3, 48, v6);
L7:;
SET64(v3, 56, 0u);
TEST(a1);
SET64(v3, 80, AT64(a1, 0));
in_mm_service_instruction_fields_padded(RUD_AS v3 + 56u, v3 + 80u);
v5 = AT64(v3, 56);
if (v4 == AT64(v3, 48)) {
i0 = in_std_alloc_vec_Vec_grow_amortized_6469b56b2f1a679e(RUD_AS v3 + 32u);
RUD_AGAIN
if (i0 == 0) goto L8;
v4 = AT64(v3, 40);
}
PUT64(AT64(v3, 32) + (v4 << 3), 0, v5);
v4 = v4 + 1u;
SET64(v3, 40, v4);
a1 = a1 + 40u;
a2 = a2 - 1u;
if (!(a2 == 0)) goto L7;
goto L3;
L8:;
if (!(AT64(v3, 48) == 0)) {
rud_dealloc(RUD_AS AT64(v3, 32));
RUD_AGAIN
}
TEST(a0);
SET8(a0, 0, 1u);
SET64(a0, 8, 0u);
SET64(a0, 16, 0u);
SET64(a0, 24, 0u);
goto L1;
}
v5 = AT64(v3, 72);
SET64(v3, 24, v5);
a2 = AT64(v3, 64);
SET64(v3, 16, a2);
a1 = AT64(v3, 56);
SET64(v3, 8, a1);
SET64(v3, 32, a1);
SET64(v3, 40, a2);
SET64(v3, 48, v5);
L3:;
TEST(a0);
SET8(a0, 0, 0u);
SET64(a0, 8, AT64(v3, 32));
SET64(a0, 16, AT64(v3, 40));
SET64(a0, 24, AT64(v3, 48));
goto L1;
}
rud_trap();
L1:;
RUD_G0 = v3 + 96u;
}

static void in_mm_st15_counted_counted_octets_00f67b8a91c49b95(RUD_IT u64 a0, u64 a1) {
u32 v4 = 0, i0 = 0;
u64 v2 = 0, v3 = 0;
RUD_HERE
v2 = RUD_G0 - 32u;
RUD_G0 = v2;
if ((s64)v2 >= (s64)16u) {
TEST(v2);
SET64(v2, 8, 0u);
SET64(v2, 16, 0u);
v3 = a1 + 8u;
TEST(v3);
v4 = AT8(v3, 0);
SET64(v2, 0, v2 + 31u);
i0 = in_std_alloc_vec_Vec_push_36cfbfb62fbfaf15(RUD_AS v2, v4);
RUD_AGAIN
if ((i0 & 255u) == 0) {
v3 = AT64(v3, 0);
if (v3 == 0) goto L3;
TEST(a1);
a1 = AT64(a1, 0);
L5:;
i0 = in_std_alloc_vec_Vec_extend_from_slice_34a1715acbac7a48(RUD_AS v2, a1, 8u);
RUD_AGAIN
if (i0 & 255u) goto L6;
TEST(a1);
v4 = AT16(a1, 8);
SET16(v2, 28, (v4 << 8) | (v4 >> 8));
i0 = in_std_alloc_vec_Vec_extend_from_slice_34a1715acbac7a48(RUD_AS v2, v2 + 28u, 2u);
RUD_AGAIN
if (i0 & 255u) goto L6;
SET16(v2, 26, AT16(a1, 10));
i0 = in_std_alloc_vec_Vec_extend_from_slice_34a1715acbac7a48(RUD_AS v2, v2 + 26u, 2u);
RUD_AGAIN
if (i0 & 255u) goto L6;
a1 = a1 + 12u;
v3 = v3 - 1u;
if (!(v3 == 0)) goto L5;
goto L3;
L6:;
if (!(AT64(v2, 16) == 0)) {
rud_dealloc(RUD_AS AT64(v2, 0));
RUD_AGAIN
}
TEST(a0);
SET8(a0, 0, 1u);
SET64(a0, 8, 0u);
SET64(a0, 16, 0u);
SET64(a0, 24, 0u);
goto L1;
}
if (!(AT64(v2, 16) == 0)) {
rud_dealloc(RUD_AS AT64(v2, 0));
RUD_AGAIN
}
TEST(a0);
SET8(a0, 0, 1u);
SET64(a0, 8, 0u);
SET64(a0, 16, 0u);
SET64(a0, 24, 0u);
goto L1;
L3:;
TEST(a0);
SET8(a0, 0, 0u);
SET64(a0, 8, AT64(v2, 0));
SET64(a0, 16, AT64(v2, 8));
SET64(a0, 24, AT64(v2, 16));
goto L1;
}
rud_trap();
L1:;
RUD_G0 = v2 + 32u;
}

static void in_mm_st15_counted_counted_octets_65c131a536ad0a17(RUD_IT u64 a0, u64 a1) {
u32 v4 = 0, i0 = 0;
u64 v2 = 0, v3 = 0;
RUD_HERE
v2 = RUD_G0 - 32u;
RUD_G0 = v2;
if ((s64)v2 >= (s64)16u) {
TEST(v2);
SET64(v2, 8, 0u);
SET64(v2, 16, 0u);
v3 = a1 + 8u;
TEST(v3);
v4 = AT8(v3, 0);
SET64(v2, 0, v2 + 31u);
i0 = in_std_alloc_vec_Vec_push_36cfbfb62fbfaf15(RUD_AS v2, v4);
RUD_AGAIN
if ((i0 & 255u) == 0) {
v3 = AT64(v3, 0);
if (v3 == 0) goto L3;
TEST(a1);
a1 = AT64(a1, 0);
L5:;
i0 = in_std_alloc_vec_Vec_extend_from_slice_34a1715acbac7a48(RUD_AS v2, a1, 8u);
RUD_AGAIN
if ((i0 & 255u) == 0) {
a1 = a1 + 8u;
v3 = v3 - 1u;
if (!(v3 == 0)) goto L5;
goto L3;
}
if (!(AT64(v2, 16) == 0)) {
rud_dealloc(RUD_AS AT64(v2, 0));
RUD_AGAIN
}
TEST(a0);
SET8(a0, 0, 1u);
SET64(a0, 8, 0u);
SET64(a0, 16, 0u);
SET64(a0, 24, 0u);
goto L1;
}
if (!(AT64(v2, 16) == 0)) {
rud_dealloc(RUD_AS AT64(v2, 0));
RUD_AGAIN
}
TEST(a0);
SET8(a0, 0, 1u);
SET64(a0, 8, 0u);
SET64(a0, 16, 0u);
SET64(a0, 24, 0u);
goto L1;
L3:;
TEST(a0);
SET8(a0, 0, 0u);
SET64(a0, 8, AT64(v2, 0));
SET64(a0, 16, AT64(v2, 8));
SET64(a0, 24, AT64(v2, 16));
goto L1;
}
rud_trap();
L1:;
RUD_G0 = v2 + 32u;
}

static void in_rudlayog_request_write(RUD_IT u64 a0, u64 a1, u64 a2, u64 a3, u64 a4, u64 a5) {
u32 v13 = 0, v14 = 0, v15 = 0, v16 = 0, v17 = 0, i0 = 0, i1 = 0, i2 = 0;
u64 v6 = 0, v7 = 0, v8 = 0, v9 = 0, v10 = 0, v11 = 0, v12 = 0, j0 = 0, j1 = 0, j2 = 0;
RUD_HERE
i0 = in_rattle_enter(RUD_AS0);
if (i0) {
rud_trap();
}
v6 = RUD_G0 - 736u;
RUD_G0 = v6;
j0 = v6;
if ((s64)v6 >= (s64)16u) {
FILL_FEW(v6 + 8u, 0u, 48u);
TEST(v6);
SET64(v6, 80, 0u);
SET64(v6, 88, 0u);
SET64(v6, 96, 0u);
SET64(v6, 104, 0u);
SET64(v6, 56, 0u);
SET64(v6, 64, 0u);
SET64(v6, 72, 0u);
TEST(a0);
if (AT16(a0, 0) <= 2046u) {
if (AT16(a0, 2) > 16383u) goto L26;
if (AT8(a0, 6) > 15u) goto L26;
in_mm_st15_request_kind_RequestKind_of_code(RUD_AS v6, AT8(a0, 7));
if ((AT8(v6, 0) & 1u) == 0) goto L25;
v10 = a3 + (a3 == 0 ? 4096ull : 0ull);
a1 = a1 + (a1 == 0 ? 4096ull : 0ull);
v13 = AT8(v6, 1);
SET64(v6, 128, 0u);
SET64(v6, 120, 0u);
SET64(v6, 112, 0u);
if ((1u << (v13 & 31)) & 126463u) {
if ((a2 - 1u) < 255u) goto L27;
goto L4;
}
if (a2 != 0u) goto L4;
L27:;
SET64(v6, 552, 0u);
SET64(v6, 560, 0u);
SET64(v6, 568, 0u);
SET64(v6, 696, 0u);
SET64(v6, 704, 0u);
SET64(v6, 712, 0u);
SET64(v6, 720, 0u);
SET64(v6, 688, 0u);
SET64(v6, 680, 0u);
SET64(v6, 672, 0u);
SET64(v6, 664, 0u);
SET64(v6, 544, 0u);
SET64(v6, 536, 0u);
SET64(v6, 528, 0u);
SET64(v6, 520, 0u);
SET64(v6, 512, 0u);
SET64(v6, 504, 0u);
SET64(v6, 496, 0u);
SET64(v6, 488, 0u);
SET64(v6, 480, 0u);
SET64(v6, 472, 0u);
SET64(v6, 464, 0u);
SET64(v6, 456, 0u);
SET64(v6, 447, 0u);
SET64(v6, 440, 0u);
SET64(v6, 432, 0u);
SET64(v6, 424, 0u);
SET64(v6, 415, 0u);
SET64(v6, 408, 0u);
SET64(v6, 400, 0u);
SET64(v6, 392, 0u);
SET64(v6, 384, 0u);
SET64(v6, 376, 0u);
SET64(v6, 368, 0u);
SET64(v6, 360, 0u);
SET64(v6, 352, 0u);
SET64(v6, 344, 0u);
SET64(v6, 336, 0u);
SET64(v6, 328, 0u);
SET64(v6, 319, 0u);
SET64(v6, 312, 0u);
SET64(v6, 304, 0u);
SET64(v6, 296, 0u);
SET64(v6, 288, 0u);
SET64(v6, 280, 0u);
SET64(v6, 272, 0u);
SET64(v6, 264, 0u);
SET64(v6, 255, 0u);
SET64(v6, 248, 0u);
SET64(v6, 240, 0u);
SET64(v6, 232, 0u);
SET64(v6, 224, 0u);
SET64(v6, 216, 0u);
SET64(v6, 208, 0u);
SET64(v6, 200, 0u);
SET64(v6, 192, 0u);
SET64(v6, 184, 0u);
SET64(v6, 176, 0u);
SET64(v6, 168, 0u);
SET64(v6, 159, 0u);
SET64(v6, 152, 0u);
SET64(v6, 144, 0u);
SET64(v6, 136, 0u);
v11 = (u64)v13 & 255u;
v14 = (u32)v11;
switch (v14 - 1u) {
case 0u: goto L43;
case 1u: goto L42;
case 2u: goto L41;
case 3u: goto L40;
case 4u: goto L39;
case 5u: goto L38;
case 6u: goto L37;
case 7u: goto L36;
case 8u: case 11u: goto L29;
case 9u: goto L35;
case 10u: goto L34;
case 12u: goto L33;
case 13u: goto L32;
case 14u: goto L31;
case 15u: goto L30;
default: goto L44;
}
L44:;
in_mm_service_instruction_fields_instructions_of_21ce33bb4e7b34ca(RUD_AS v6 + 696u, a1, a2);
RUD_AGAIN
if (AT8(v6, 696)) goto L5;
SET64(v6, 568, AT64(v6, 720));
SET64(v6, 560, AT64(v6, 712));
SET64(v6, 552, AT64(v6, 704));
goto L29;
L43:;
in_mm_service_instruction_fields_instructions_of_21ce33bb4e7b34ca(RUD_AS v6 + 664u, a1, a2);
RUD_AGAIN
if (AT8(v6, 664)) goto L5;
SET64(v6, 568, AT64(v6, 688));
SET64(v6, 560, AT64(v6, 680));
SET64(v6, 552, AT64(v6, 672));
goto L29;
L42:;
in_mm_service_instruction_fields_instructions_of_26e9ada56fdfd805(RUD_AS v6 + 520u, a1, a2);
RUD_AGAIN
if (AT8(v6, 520)) goto L5;
SET64(v6, 568, AT64(v6, 544));
SET64(v6, 560, AT64(v6, 536));
SET64(v6, 552, AT64(v6, 528));
goto L29;
L41:;
in_mm_service_instruction_fields_instructions_of_26e9ada56fdfd805(RUD_AS v6 + 488u, a1, a2);
RUD_AGAIN
if (AT8(v6, 488)) goto L5;
SET64(v6, 568, AT64(v6, 512));
SET64(v6, 560, AT64(v6, 504));
SET64(v6, 552, AT64(v6, 496));
goto L29;
L40:;
in_mm_service_instruction_fields_instructions_of_21ce33bb4e7b34ca(RUD_AS v6 + 456u, a1, a2);
RUD_AGAIN
if (AT8(v6, 456)) goto L5;
SET64(v6, 568, AT64(v6, 480));
SET64(v6, 560, AT64(v6, 472));
SET64(v6, 552, AT64(v6, 464));
goto L29;
L39:;
SET64(v6, 640, 0u);
SET64(v6, 648, 0u);
SET64(v6, 632, v6 + 728u);
if (!(a2 == 0)) {
i1 = in_std_alloc_vec_Vec_move_to_b6ba752709f1c5bb(RUD_AS v6 + 632u, a2);
RUD_AGAIN
if (i1 == 0) {
if (AT64(v6, 648) == 0) goto L5;
rud_dealloc(RUD_AS AT64(v6, 632));
RUD_AGAIN
goto L5;
}
v7 = AT64(v6, 648);
SET64(v6, 600, v7);
a3 = AT64(v6, 640);
SET64(v6, 592, a3);
v8 = AT64(v6, 632);
SET64(v6, 584, v8);
SET64(v6, 608, v8);
SET64(v6, 616, a3);
SET64(v6, 624, v7);
L48:;
SET64(v6, 632, 0u);
TEST(a1);
SET64(v6, 656, AT64(a1, 0));
in_mm_service_instruction_fields_padded(RUD_AS v6 + 632u, v6 + 656u);
v8 = AT64(a1, 16);
v9 = AT64(a1, 8);
v12 = AT64(v6, 632);
if (a3 == AT64(v6, 624)) {
i1 = in_std_alloc_vec_Vec_grow_amortized_b6ba752709f1c5bb(RUD_AS v6 + 608u);
RUD_AGAIN
if (i1 == 0) goto L49;
a3 = AT64(v6, 616);
}
v7 = AT64(v6, 608) + (a3 * 24u);
TEST(v7);
SET64(v7, 16, v8);
SET64(v7, 8, v9);
SET64(v7, 0, v12);
a3 = a3 + 1u;
SET64(v6, 616, a3);
a1 = a1 + 40u;
a2 = a2 - 1u;
if (!(a2 == 0)) goto L48;
goto L45;
L49:;
if (AT64(v6, 624) == 0) goto L5;
rud_dealloc(RUD_AS AT64(v6, 608));
RUD_AGAIN
goto L5;
}
a1 = AT64(v6, 648);
SET64(v6, 600, a1);
a2 = AT64(v6, 640);
SET64(v6, 592, a2);
a3 = AT64(v6, 632);
SET64(v6, 584, a3);
SET64(v6, 608, a3);
SET64(v6, 616, a2);
SET64(v6, 624, a1);
L45:;
a1 = AT64(v6, 624);
SET64(v6, 447, a1);
a2 = AT64(v6, 616);
SET64(v6, 439, a2);
a3 = AT64(v6, 608);
SET64(v6, 431, a3);
SET64(v6, 552, a3);
SET64(v6, 560, a2);
SET64(v6, 568, a1);
goto L29;
L38:;
SET64(v6, 640, 0u);
SET64(v6, 648, 0u);
SET64(v6, 632, v6 + 728u);
if (!(a2 == 0)) {
i1 = in_std_alloc_vec_Vec_move_to_8f93ed18667da11d(RUD_AS v6 + 632u, a2);
RUD_AGAIN
if (i1 == 0) {
if (AT64(v6, 648) == 0) goto L5;
rud_dealloc(RUD_AS AT64(v6, 632));
RUD_AGAIN
goto L5;
}
v7 = AT64(v6, 648);
SET64(v6, 600, v7);
a3 = AT64(v6, 640);
SET64(v6, 592, a3);
v8 = AT64(v6, 632);
SET64(v6, 584, v8);
SET64(v6, 608, v8);
SET64(v6, 616, a3);
SET64(v6, 624, v7);
L54:;
SET64(v6, 632, 0u);
TEST(a1);
SET64(v6, 656, AT64(a1, 0));
in_mm_service_instruction_fields_padded(RUD_AS v6 + 632u, v6 + 656u);
v7 = AT64(a1, 16);
v8 = AT64(v6, 632);
if (a3 == AT64(v6, 624)) {
i1 = in_std_alloc_vec_Vec_grow_amortized_8f93ed18667da11d(RUD_AS v6 + 608u);
RUD_AGAIN
if (i1 == 0) goto L55;
a3 = AT64(v6, 616);
}
v9 = AT64(v6, 608) + (a3 << 4);
TEST(v9);
SET64(v9, 8, v7);
SET64(v9, 0, v8);
a3 = a3 + 1u;
SET64(v6, 616, a3);
a1 = a1 + 40u;
a2 = a2 - 1u;
if (!(a2 == 0)) goto L54;
goto L51;
L55:;
if (AT64(v6, 624) == 0) goto L5;
rud_dealloc(RUD_AS AT64(v6, 608));
RUD_AGAIN
goto L5;
}
a1 = AT64(v6, 648);
SET64(v6, 600, a1);
a2 = AT64(v6, 640);
SET64(v6, 592, a2);
a3 = AT64(v6, 632);
SET64(v6, 584, a3);
SET64(v6, 608, a3);
SET64(v6, 616, a2);
SET64(v6, 624, a1);
L51:;
a1 = AT64(v6, 624);
SET64(v6, 415, a1);
a2 = AT64(v6, 616);
SET64(v6, 407, a2);
a3 = AT64(v6, 608);
SET64(v6, 399, a3);
SET64(v6, 552, a3);
SET64(v6, 560, a2);
SET64(v6, 568, a1);
goto L29;
L37:;
in_mm_service_instruction_fields_instructions_of_21ce33bb4e7b34ca(RUD_AS v6 + 360u, a1, a2);
RUD_AGAIN
if (AT8(v6, 360)) goto L5;
SET64(v6, 568, AT64(v6, 384));
SET64(v6, 560, AT64(v6, 376));
SET64(v6, 552, AT64(v6, 368));
goto L29;
L36:;
in_mm_service_instruction_fields_instructions_of_21ce33bb4e7b34ca(RUD_AS v6 + 328u, a1, a2);
RUD_AGAIN
if (AT8(v6, 328)) goto L5;
SET64(v6, 568, AT64(v6, 352));
SET64(v6, 560, AT64(v6, 344));
SET64(v6, 552, AT64(v6, 336));
goto L29;
L35:;
SET64(v6, 640, 0u);
SET64(v6, 648, 0u);
SET64(v6, 632, v6 + 728u);
if (!(a2 == 0)) {
i1 = in_std_alloc_vec_Vec_move_to_baf47378b5fee3d3(RUD_AS v6 + 632u, a2);
RUD_AGAIN
if (i1 == 0) {
if (AT64(v6, 648) == 0) goto L5;
rud_dealloc(RUD_AS AT64(v6, 632));
RUD_AGAIN
goto L5;
}
v7 = AT64(v6, 648);
SET64(v6, 600, v7);
a3 = AT64(v6, 640);
SET64(v6, 592, a3);
v8 = AT64(v6, 632);
SET64(v6, 584, v8);
SET64(v6, 608, v8);
SET64(v6, 616, a3);
SET64(v6, 624, v7);
L60:;
SET64(v6, 632, 0u);
TEST(a1);
SET64(v6, 656, AT64(a1, 0));
in_mm_service_instruction_fields_padded(RUD_AS v6 + 632u, v6 + 656u);
v13 = AT8(a1, 33);
v15 = AT8(a1, 32);
v16 = AT32(a1, 24);
v8 = AT64(v6, 632);
if (a3 == AT64(v6, 624)) {
i1 = in_std_alloc_vec_Vec_grow_amortized_baf47378b5fee3d3(RUD_AS v6 + 608u);
RUD_AGAIN
if (i1 == 0) goto L61;
a3 = AT64(v6, 616);
}
v7 = AT64(v6, 608) + (a3 << 4);
TEST(v7);
SET16(v7, 14, 0u);
SET8(v7, 13, v13);
SET8(v7, 12, v15);
SET32(v7, 8, v16);
SET64(v7, 0, v8);
a3 = a3 + 1u;
SET64(v6, 616, a3);
a1 = a1 + 40u;
a2 = a2 - 1u;
if (!(a2 == 0)) goto L60;
goto L57;
L61:;
if (AT64(v6, 624) == 0) goto L5;
rud_dealloc(RUD_AS AT64(v6, 608));
RUD_AGAIN
goto L5;
}
a1 = AT64(v6, 648);
SET64(v6, 600, a1);
a2 = AT64(v6, 640);
SET64(v6, 592, a2);
a3 = AT64(v6, 632);
SET64(v6, 584, a3);
SET64(v6, 608, a3);
SET64(v6, 616, a2);
SET64(v6, 624, a1);
L57:;
a1 = AT64(v6, 624);
SET64(v6, 319, a1);
a2 = AT64(v6, 616);
SET64(v6, 311, a2);
a3 = AT64(v6, 608);
SET64(v6, 303, a3);
SET64(v6, 552, a3);
SET64(v6, 560, a2);
SET64(v6, 568, a1);
goto L29;
L34:;
in_mm_service_instruction_fields_instructions_of_21ce33bb4e7b34ca(RUD_AS v6 + 264u, a1, a2);
RUD_AGAIN
if (AT8(v6, 264)) goto L5;
SET64(v6, 568, AT64(v6, 288));
SET64(v6, 560, AT64(v6, 280));
SET64(v6, 552, AT64(v6, 272));
goto L29;
L33:;
SET64(v6, 640, 0u);
SET64(v6, 648, 0u);
SET64(v6, 632, v6 + 728u);
if (!(a2 == 0)) {
i1 = in_std_alloc_vec_Vec_move_to_2e6a255000427900(RUD_AS v6 + 632u, a2);
RUD_AGAIN
if (i1 == 0) {
if (AT64(v6, 648) == 0) goto L5;
rud_dealloc(RUD_AS AT64(v6, 632));
RUD_AGAIN
goto L5;
}
v7 = AT64(v6, 648);
SET64(v6, 600, v7);
a3 = AT64(v6, 640);
SET64(v6, 592, a3);
v8 = AT64(v6, 632);
SET64(v6, 584, v8);
SET64(v6, 608, v8);
SET64(v6, 616, a3);
SET64(v6, 624, v7);
L66:;
SET64(v6, 632, 0u);
TEST(a1);
SET64(v6, 656, AT64(a1, 0));
in_mm_service_instruction_fields_padded(RUD_AS v6 + 632u, v6 + 656u);
v13 = AT32(a1, 24);
v7 = AT64(v6, 632);
if (a3 == AT64(v6, 624)) {
i1 = in_std_alloc_vec_Vec_grow_amortized_2e6a255000427900(RUD_AS v6 + 608u);
RUD_AGAIN
if (i1 == 0) goto L67;
a3 = AT64(v6, 616);
}
v8 = AT64(v6, 608) + (a3 * 12u);
TEST(v8);
SET32(v8, 8, v13);
SET64(v8, 0, v7);
a3 = a3 + 1u;
SET64(v6, 616, a3);
a1 = a1 + 40u;
a2 = a2 - 1u;
if (!(a2 == 0)) goto L66;
goto L63;
L67:;
if (AT64(v6, 624) == 0) goto L5;
rud_dealloc(RUD_AS AT64(v6, 608));
RUD_AGAIN
goto L5;
}
a1 = AT64(v6, 648);
SET64(v6, 600, a1);
a2 = AT64(v6, 640);
SET64(v6, 592, a2);
a3 = AT64(v6, 632);
SET64(v6, 584, a3);
SET64(v6, 608, a3);
SET64(v6, 616, a2);
SET64(v6, 624, a1);
L63:;
a1 = AT64(v6, 624);
SET64(v6, 255, a1);
a2 = AT64(v6, 616);
SET64(v6, 247, a2);
a3 = AT64(v6, 608);
SET64(v6, 239, a3);
SET64(v6, 552, a3);
SET64(v6, 560, a2);
SET64(v6, 568, a1);
goto L29;
L32:;
in_mm_service_instruction_fields_instructions_of_21ce33bb4e7b34ca(RUD_AS v6 + 200u, a1, a2);
RUD_AGAIN
if (AT8(v6, 200)) goto L5;
SET64(v6, 568, AT64(v6, 224));
SET64(v6, 560, AT64(v6, 216));
SET64(v6, 552, AT64(v6, 208));
goto L29;
L31:;
in_mm_service_instruction_fields_instructions_of_21ce33bb4e7b34ca(RUD_AS v6 + 168u, a1, a2);
RUD_AGAIN
if (AT8(v6, 168)) goto L5;
SET64(v6, 568, AT64(v6, 192));
SET64(v6, 560, AT64(v6, 184));
SET64(v6, 552, AT64(v6, 176));
goto L29;
L30:;
SET64(v6, 640, 0u);
SET64(v6, 648, 0u);
SET64(v6, 632, v6 + 728u);
if (!(a2 == 0)) {
i1 = in_std_alloc_vec_Vec_move_to_66712223a0a96b53(RUD_AS v6 + 632u, a2);
RUD_AGAIN
if (i1 == 0) {
if (AT64(v6, 648) == 0) goto L5;
rud_dealloc(RUD_AS AT64(v6, 632));
RUD_AGAIN
goto L5;
}
v7 = AT64(v6, 648);
SET64(v6, 600, v7);
a3 = AT64(v6, 640);
SET64(v6, 592, a3);
v8 = AT64(v6, 632);
SET64(v6, 584, v8);
SET64(v6, 608, v8);
SET64(v6, 616, a3);
SET64(v6, 624, v7);
L72:;
SET64(v6, 632, 0u);
TEST(a1);
SET64(v6, 656, AT64(a1, 0));
in_mm_service_instruction_fields_padded(RUD_AS v6 + 632u, v6 + 656u);
v13 = AT8(a1, 33);
v7 = AT64(v6, 632);
if (a3 == AT64(v6, 624)) {
i1 = in_std_alloc_vec_Vec_grow_amortized_66712223a0a96b53(RUD_AS v6 + 608u);
RUD_AGAIN
if (i1 == 0) goto L73;
a3 = AT64(v6, 616);
}
v8 = AT64(v6, 608) + (a3 * 9u);
TEST(v8);
SET8(v8, 8, v13);
SET64(v8, 0, v7);
a3 = a3 + 1u;
SET64(v6, 616, a3);
a1 = a1 + 40u;
a2 = a2 - 1u;
if (!(a2 == 0)) goto L72;
goto L69;
L73:;
if (AT64(v6, 624) == 0) goto L5;
rud_dealloc(RUD_AS AT64(v6, 608));
RUD_AGAIN
goto L5;
}
a1 = AT64(v6, 648);
SET64(v6, 600, a1);
a2 = AT64(v6, 640);
SET64(v6, 592, a2);
a3 = AT64(v6, 632);
SET64(v6, 584, a3);
SET64(v6, 608, a3);
SET64(v6, 616, a2);
SET64(v6, 624, a1);
L69:;
a1 = AT64(v6, 624);
SET64(v6, 159, a1);
a2 = AT64(v6, 616);
SET64(v6, 151, a2);
a3 = AT64(v6, 608);
SET64(v6, 143, a3);
SET64(v6, 552, a3);
SET64(v6, 560, a2);
SET64(v6, 568, a1);
L29:;
SET64(v6, 128, AT64(v6, 568));
SET64(v6, 120, AT64(v6, 560));
SET64(v6, 112, AT64(v6, 552));
SET64(v6, 72, AT64(v6, 128));
SET64(v6, 64, AT64(v6, 120));
SET64(v6, 56, AT64(v6, 112));
SET64(v6, 80, v11);
SET64(v6, 104, AT64(v6, 72));
SET64(v6, 96, AT64(v6, 64));
SET64(v6, 88, AT64(v6, 56));
v13 = AT16(a0, 2);
v17 = AT8(a0, 6);
v15 = AT16(a0, 4);
v16 = AT16(a0, 0);
SET64(v6, 664, 0u);
SET64(v6, 672, 0u);
SET64(v6, 680, 0u);
SET64(v6, 688, 0u);
SET64(v6, 456, 0u);
SET64(v6, 464, 0u);
SET64(v6, 472, 0u);
SET64(v6, 520, 0u);
SET64(v6, 528, 0u);
SET64(v6, 536, 0u);
SET64(v6, 543, 0u);
a0 = v6 + 88u;
j1 = v6;
switch (v14 - 1u) {
case 0u: goto L95;
case 1u: goto L94;
case 2u: goto L93;
case 3u: goto L92;
case 4u: goto L91;
case 5u: goto L90;
case 6u: goto L89;
case 7u: goto L88;
case 8u: goto L81;
case 9u: goto L87;
case 10u: goto L86;
case 11u: goto L80;
case 12u: goto L85;
case 13u: goto L84;
case 14u: goto L83;
case 15u: goto L82;
default: goto L78;
}
L95:;
SET64(v6, 720, 0u);
SET64(v6, 712, 0u);
SET64(v6, 704, 0u);
SET64(v6, 696, 0u);
in_mm_st15_counted_counted_octets_65c131a536ad0a17(RUD_AS v6 + 696u, a0);
RUD_AGAIN
i2 = 2u;
goto L77;
L94:;
SET64(v6, 720, 0u);
SET64(v6, 712, 0u);
SET64(v6, 704, 0u);
SET64(v6, 696, 0u);
in_mm_st15_counted_counted_octets_00f67b8a91c49b95(RUD_AS v6 + 696u, a0);
RUD_AGAIN
i2 = 3u;
goto L77;
L93:;
SET64(v6, 720, 0u);
SET64(v6, 712, 0u);
SET64(v6, 704, 0u);
SET64(v6, 696, 0u);
in_mm_st15_counted_counted_octets_00f67b8a91c49b95(RUD_AS v6 + 696u, a0);
RUD_AGAIN
i2 = 4u;
goto L77;
L92:;
SET64(v6, 720, 0u);
SET64(v6, 712, 0u);
SET64(v6, 704, 0u);
SET64(v6, 696, 0u);
in_mm_st15_counted_counted_octets_65c131a536ad0a17(RUD_AS v6 + 696u, a0);
RUD_AGAIN
i2 = 5u;
goto L77;
L91:;
SET64(v6, 720, 0u);
SET64(v6, 712, 0u);
SET64(v6, 704, 0u);
SET64(v6, 696, 0u);
SET64(v6, 496, 0u);
SET64(v6, 504, 0u);
SET64(v6, 488, v6 + 728u);
i2 = in_std_alloc_vec_Vec_push_36cfbfb62fbfaf15(RUD_AS v6 + 488u, AT8(v6, 96));
RUD_AGAIN
if ((i2 & 255u) == 0) {
a2 = AT64(v6, 96);
if (a2 == 0) goto L97;
a0 = AT64(v6, 88);
L99:;
SET64(v6, 360, 0u);
i2 = in_std_alloc_vec_Vec_extend_from_slice_34a1715acbac7a48(RUD_AS v6 + 488u, a0, 8u);
RUD_AGAIN
if (i2 & 255u) goto L100;
TEST(a0);
in_core_int_u64_to_be_bytes(RUD_AS v6 + 360u, AT64(a0, 8));
SET64(v6, 328, AT64(v6, 360));
i2 = in_std_alloc_vec_Vec_extend_from_slice_34a1715acbac7a48(RUD_AS v6 + 488u, v6 + 328u, 8u);
RUD_AGAIN
if (i2 & 255u) goto L100;
in_core_int_u64_to_be_bytes(RUD_AS v6 + 360u, AT64(a0, 16));
SET64(v6, 264, AT64(v6, 360));
i2 = in_std_alloc_vec_Vec_extend_from_slice_34a1715acbac7a48(RUD_AS v6 + 488u, v6 + 264u, 8u);
RUD_AGAIN
if (i2 & 255u) goto L100;
a0 = a0 + 24u;
a2 = a2 - 1u;
if (!(a2 == 0)) goto L99;
goto L97;
L100:;
if (!(AT64(v6, 504) == 0)) {
rud_dealloc(RUD_AS AT64(v6, 488));
RUD_AGAIN
}
SET64(v6, 704, 0u);
SET8(v6, 696, 1u);
SET64(v6, 712, 0u);
SET64(v6, 720, 0u);
goto L96;
}
if (!(AT64(v6, 504) == 0)) {
rud_dealloc(RUD_AS AT64(v6, 488));
RUD_AGAIN
}
SET64(v6, 704, 0u);
SET8(v6, 696, 1u);
SET64(v6, 712, 0u);
SET64(v6, 720, 0u);
goto L96;
L97:;
SET8(v6, 696, 0u);
SET64(v6, 704, AT64(v6, 488));
SET64(v6, 712, AT64(v6, 496));
SET64(v6, 720, AT64(v6, 504));
L96:;
i2 = 9u;
goto L77;
L90:;
SET64(v6, 720, 0u);
SET64(v6, 712, 0u);
SET64(v6, 704, 0u);
SET64(v6, 696, 0u);
SET64(v6, 496, 0u);
SET64(v6, 504, 0u);
SET64(v6, 488, v6 + 728u);
i2 = in_std_alloc_vec_Vec_push_36cfbfb62fbfaf15(RUD_AS v6 + 488u, AT8(v6, 96));
RUD_AGAIN
if ((i2 & 255u) == 0) {
a2 = AT64(v6, 96);
if (a2 == 0) goto L104;
a0 = AT64(v6, 88);
L106:;
SET64(v6, 360, 0u);
i2 = in_std_alloc_vec_Vec_extend_from_slice_34a1715acbac7a48(RUD_AS v6 + 488u, a0, 8u);
RUD_AGAIN
if (i2 & 255u) goto L107;
TEST(a0);
in_core_int_u64_to_be_bytes(RUD_AS v6 + 360u, AT64(a0, 8));
SET64(v6, 328, AT64(v6, 360));
i2 = in_std_alloc_vec_Vec_extend_from_slice_34a1715acbac7a48(RUD_AS v6 + 488u, v6 + 328u, 8u);
RUD_AGAIN
if (i2 & 255u) goto L107;
a0 = a0 + 16u;
a2 = a2 - 1u;
if (!(a2 == 0)) goto L106;
goto L104;
L107:;
if (!(AT64(v6, 504) == 0)) {
rud_dealloc(RUD_AS AT64(v6, 488));
RUD_AGAIN
}
SET64(v6, 704, 0u);
SET8(v6, 696, 1u);
SET64(v6, 712, 0u);
SET64(v6, 720, 0u);
goto L103;
}
if (!(AT64(v6, 504) == 0)) {
rud_dealloc(RUD_AS AT64(v6, 488));
RUD_AGAIN
}
SET64(v6, 704, 0u);
SET8(v6, 696, 1u);
SET64(v6, 712, 0u);
SET64(v6, 720, 0u);
goto L103;
L104:;
SET8(v6, 696, 0u);
SET64(v6, 704, AT64(v6, 488));
SET64(v6, 712, AT64(v6, 496));
SET64(v6, 720, AT64(v6, 504));
L103:;
i2 = 11u;
goto L77;
L89:;
SET64(v6, 720, 0u);
SET64(v6, 712, 0u);
SET64(v6, 704, 0u);
SET64(v6, 696, 0u);
in_mm_st15_counted_counted_octets_65c131a536ad0a17(RUD_AS v6 + 696u, a0);
RUD_AGAIN
i2 = 12u;
goto L77;
L88:;
SET64(v6, 720, 0u);
SET64(v6, 712, 0u);
SET64(v6, 704, 0u);
SET64(v6, 696, 0u);
in_mm_st15_counted_counted_octets_65c131a536ad0a17(RUD_AS v6 + 696u, a0);
RUD_AGAIN
i2 = 17u;
goto L77;
L87:;
SET64(v6, 720, 0u);
SET64(v6, 712, 0u);
SET64(v6, 704, 0u);
SET64(v6, 696, 0u);
in_mm_st15_counted_counted_octets_93728722e2cdf027(RUD_AS v6 + 696u, a0);
RUD_AGAIN
i2 = 20u;
goto L77;
L86:;
SET64(v6, 720, 0u);
SET64(v6, 712, 0u);
SET64(v6, 704, 0u);
SET64(v6, 696, 0u);
in_mm_st15_counted_counted_octets_65c131a536ad0a17(RUD_AS v6 + 696u, a0);
RUD_AGAIN
i2 = 21u;
goto L77;
L85:;
SET64(v6, 720, 0u);
SET64(v6, 712, 0u);
SET64(v6, 704, 0u);
SET64(v6, 696, 0u);
SET64(v6, 496, 0u);
SET64(v6, 504, 0u);
SET64(v6, 488, v6 + 728u);
i2 = in_std_alloc_vec_Vec_push_36cfbfb62fbfaf15(RUD_AS v6 + 488u, AT8(v6, 96));
RUD_AGAIN
if ((i2 & 255u) == 0) {
a2 = AT64(v6, 96);
if (a2 == 0) goto L111;
a0 = AT64(v6, 88);
L113:;
i2 = in_std_alloc_vec_Vec_extend_from_slice_34a1715acbac7a48(RUD_AS v6 + 488u, a0, 8u);
RUD_AGAIN
if (i2 & 255u) goto L114;
TEST(a0);
v14 = AT32(a0, 8);
SET32(v6, 360, rud_rotr32((v14 & 16711935u), 8u) | (rud_rotr32(v14, 24u) & 16711935u));
i2 = in_std_alloc_vec_Vec_extend_from_slice_34a1715acbac7a48(RUD_AS v6 + 488u, v6 + 360u, 4u);
RUD_AGAIN
if (i2 & 255u) goto L114;
a0 = a0 + 12u;
a2 = a2 - 1u;
if (!(a2 == 0)) goto L113;
goto L111;
L114:;
if (!(AT64(v6, 504) == 0)) {
rud_dealloc(RUD_AS AT64(v6, 488));
RUD_AGAIN
}
SET64(v6, 704, 0u);
SET8(v6, 696, 1u);
SET64(v6, 712, 0u);
SET64(v6, 720, 0u);
goto L110;
}
if (!(AT64(v6, 504) == 0)) {
rud_dealloc(RUD_AS AT64(v6, 488));
RUD_AGAIN
}
SET64(v6, 704, 0u);
SET8(v6, 696, 1u);
SET64(v6, 712, 0u);
SET64(v6, 720, 0u);
goto L110;
L111:;
SET8(v6, 696, 0u);
SET64(v6, 704, AT64(v6, 488));
SET64(v6, 712, AT64(v6, 496));
SET64(v6, 720, AT64(v6, 504));
L110:;
i2 = 25u;
goto L77;
L84:;
SET64(v6, 720, 0u);
SET64(v6, 712, 0u);
SET64(v6, 704, 0u);
SET64(v6, 696, 0u);
in_mm_st15_counted_counted_octets_65c131a536ad0a17(RUD_AS v6 + 696u, a0);
RUD_AGAIN
i2 = 26u;
goto L77;
L83:;
SET64(v6, 720, 0u);
SET64(v6, 712, 0u);
SET64(v6, 704, 0u);
SET64(v6, 696, 0u);
in_mm_st15_counted_counted_octets_65c131a536ad0a17(RUD_AS v6 + 696u, a0);
RUD_AGAIN
i2 = 27u;
goto L77;
L82:;
SET64(v6, 720, 0u);
SET64(v6, 712, 0u);
SET64(v6, 704, 0u);
SET64(v6, 696, 0u);
SET64(v6, 496, 0u);
SET64(v6, 504, 0u);
SET64(v6, 488, v6 + 728u);
i2 = in_std_alloc_vec_Vec_push_36cfbfb62fbfaf15(RUD_AS v6 + 488u, AT8(v6, 96));
RUD_AGAIN
if ((i2 & 255u) == 0) {
a2 = AT64(v6, 96);
if (a2 == 0) goto L118;
a0 = AT64(v6, 88);
L120:;
i2 = in_std_alloc_vec_Vec_extend_from_slice_34a1715acbac7a48(RUD_AS v6 + 488u, a0, 8u);
RUD_AGAIN
if (i2 & 255u) goto L121;
TEST(a0);
SET8(v6, 360, AT8(a0, 8));
i2 = in_std_alloc_vec_Vec_extend_from_slice_34a1715acbac7a48(RUD_AS v6 + 488u, v6 + 360u, 1u);
RUD_AGAIN
if (i2 & 255u) goto L121;
a0 = a0 + 9u;
a2 = a2 - 1u;
if (!(a2 == 0)) goto L120;
goto L118;
L121:;
if (!(AT64(v6, 504) == 0)) {
rud_dealloc(RUD_AS AT64(v6, 488));
RUD_AGAIN
}
SET64(v6, 704, 0u);
SET8(v6, 696, 1u);
SET64(v6, 712, 0u);
SET64(v6, 720, 0u);
goto L117;
}
if (!(AT64(v6, 504) == 0)) {
rud_dealloc(RUD_AS AT64(v6, 488));
RUD_AGAIN
}
SET64(v6, 704, 0u);
SET8(v6, 696, 1u);
SET64(v6, 712, 0u);
SET64(v6, 720, 0u);
goto L117;
L118:;
SET8(v6, 696, 0u);
SET64(v6, 704, AT64(v6, 488));
SET64(v6, 712, AT64(v6, 496));
SET64(v6, 720, AT64(v6, 504));
L117:;
i2 = 28u;
goto L77;
L81:;
SET64(v6, 712, 0u);
SET64(v6, 720, 0u);
SET64(v6, 704, v6 + 728u);
i2 = 18u;
goto L79;
L80:;
SET64(v6, 712, 0u);
SET64(v6, 720, 0u);
SET64(v6, 704, v6 + 728u);
i2 = 22u;
L79:;
v14 = i2;
SET64(v6, 543, AT64(v6, 720));
SET64(v6, 535, AT64(v6, 712));
SET64(v6, 527, AT64(v6, 704));
j2 = (v6 + 520u) | 7u;
goto L76;
L78:;
SET64(v6, 720, 0u);
SET64(v6, 712, 0u);
SET64(v6, 704, 0u);
SET64(v6, 696, 0u);
in_mm_st15_counted_counted_octets_65c131a536ad0a17(RUD_AS v6 + 696u, a0);
RUD_AGAIN
i2 = 1u;
L77:;
v14 = i2;
SET64(v6, 527, AT64(v6, 704));
SET64(v6, 535, AT64(v6, 712));
SET64(v6, 543, AT64(v6, 720));
if (AT8(v6, 696)) goto L75;
j2 = (v6 + 520u) | 7u;
L76:;
a0 = j2;
TEST(a0);
TEST(j1);
SET64(j1, 472, AT64(a0, 16));
SET64(v6, 464, AT64(a0, 8));
SET64(v6, 456, AT64(a0, 0));
in_mm_packet_octets_Octets_new(RUD_AS v6 + 664u, v6 + 456u);
RUD_AGAIN
a0 = AT64(v6, 672);
if (AT8(v6, 664) == 0) goto L23;
if (AT64(v6, 688) == 0) goto L75;
rud_dealloc(RUD_AS a0);
RUD_AGAIN
L75:;
switch ((u32)(u64)AT8(v6, 80) - 1u) {
case 0u: goto L137;
case 1u: goto L136;
case 2u: goto L135;
case 3u: goto L134;
case 4u: goto L133;
case 5u: goto L132;
case 6u: goto L131;
case 7u: goto L130;
case 8u: case 11u: goto L5;
case 9u: goto L129;
case 10u: goto L128;
case 12u: goto L127;
case 13u: goto L126;
case 14u: goto L125;
case 15u: goto L124;
default: goto L138;
}
L138:;
if (AT64(v6, 104) == 0) goto L5;
rud_dealloc(RUD_AS AT64(v6, 88));
RUD_AGAIN
goto L5;
L137:;
if (AT64(v6, 104) == 0) goto L5;
rud_dealloc(RUD_AS AT64(v6, 88));
RUD_AGAIN
goto L5;
L136:;
if (AT64(v6, 104) == 0) goto L5;
rud_dealloc(RUD_AS AT64(v6, 88));
RUD_AGAIN
goto L5;
L135:;
if (AT64(v6, 104) == 0) goto L5;
rud_dealloc(RUD_AS AT64(v6, 88));
RUD_AGAIN
goto L5;
L134:;
if (AT64(v6, 104) == 0) goto L5;
rud_dealloc(RUD_AS AT64(v6, 88));
RUD_AGAIN
goto L5;
L133:;
if (AT64(v6, 104) == 0) goto L5;
rud_dealloc(RUD_AS AT64(v6, 88));
RUD_AGAIN
goto L5;
L132:;
if (AT64(v6, 104) == 0) goto L5;
rud_dealloc(RUD_AS AT64(v6, 88));
RUD_AGAIN
goto L5;
L131:;
if (AT64(v6, 104) == 0) goto L5;
rud_dealloc(RUD_AS AT64(v6, 88));
RUD_AGAIN
goto L5;
L130:;
if (AT64(v6, 104) == 0) goto L5;
rud_dealloc(RUD_AS AT64(v6, 88));
RUD_AGAIN
goto L5;
L129:;
if (AT64(v6, 104) == 0) goto L5;
rud_dealloc(RUD_AS AT64(v6, 88));
RUD_AGAIN
goto L5;
L128:;
if (AT64(v6, 104) == 0) goto L5;
rud_dealloc(RUD_AS AT64(v6, 88));
RUD_AGAIN
goto L5;
L127:;
if (AT64(v6, 104) == 0) goto L5;
rud_dealloc(RUD_AS AT64(v6, 88));
RUD_AGAIN
goto L5;
L126:;
if (AT64(v6, 104) == 0) goto L5;
rud_dealloc(RUD_AS AT64(v6, 88));
RUD_AGAIN
goto L5;
L125:;
if (AT64(v6, 104) == 0) goto L5;
rud_dealloc(RUD_AS AT64(v6, 88));
RUD_AGAIN
goto L5;
L124:;
if (AT64(v6, 104) == 0) goto L5;
rud_dealloc(RUD_AS AT64(v6, 88));
RUD_AGAIN
goto L5;
L26:;
i1 = 33u;
goto L3;
L25:;
i1 = 13u;
goto L3;
}
i1 = 6u;
goto L3;
L23:;
switch ((u32)(u64)AT8(v6, 80) - 1u) {
case 0u: goto L8;
case 1u: goto L9;
case 2u: goto L10;
case 3u: goto L11;
case 4u: goto L12;
case 5u: goto L13;
case 6u: goto L14;
case 7u: goto L15;
case 8u: case 11u: goto L6;
case 9u: goto L16;
case 10u: goto L17;
case 12u: goto L18;
case 13u: goto L19;
case 14u: goto L20;
case 15u: goto L21;
default: goto L7;
}
}
rud_trap();
L21:;
if (AT64(v6, 104) == 0) goto L6;
rud_dealloc(RUD_AS AT64(v6, 88));
RUD_AGAIN
goto L6;
L20:;
if (AT64(v6, 104) == 0) goto L6;
rud_dealloc(RUD_AS AT64(v6, 88));
RUD_AGAIN
goto L6;
L19:;
if (AT64(v6, 104) == 0) goto L6;
rud_dealloc(RUD_AS AT64(v6, 88));
RUD_AGAIN
goto L6;
L18:;
if (AT64(v6, 104) == 0) goto L6;
rud_dealloc(RUD_AS AT64(v6, 88));
RUD_AGAIN
goto L6;
L17:;
if (AT64(v6, 104) == 0) goto L6;
rud_dealloc(RUD_AS AT64(v6, 88));
RUD_AGAIN
goto L6;
L16:;
if (AT64(v6, 104) == 0) goto L6;
rud_dealloc(RUD_AS AT64(v6, 88));
RUD_AGAIN
goto L6;
L15:;
if (AT64(v6, 104) == 0) goto L6;
rud_dealloc(RUD_AS AT64(v6, 88));
RUD_AGAIN
goto L6;
L14:;
if (AT64(v6, 104) == 0) goto L6;
rud_dealloc(RUD_AS AT64(v6, 88));
RUD_AGAIN
goto L6;
L13:;
if (AT64(v6, 104) == 0) goto L6;
rud_dealloc(RUD_AS AT64(v6, 88));
RUD_AGAIN
goto L6;
L12:;
if (AT64(v6, 104) == 0) goto L6;
rud_dealloc(RUD_AS AT64(v6, 88));
RUD_AGAIN
goto L6;
L11:;
if (AT64(v6, 104) == 0) goto L6;
rud_dealloc(RUD_AS AT64(v6, 88));
RUD_AGAIN
goto L6;
L10:;
if (AT64(v6, 104) == 0) goto L6;
rud_dealloc(RUD_AS AT64(v6, 88));
RUD_AGAIN
goto L6;
L9:;
if (AT64(v6, 104) == 0) goto L6;
rud_dealloc(RUD_AS AT64(v6, 88));
RUD_AGAIN
goto L6;
L8:;
if (AT64(v6, 104) == 0) goto L6;
rud_dealloc(RUD_AS AT64(v6, 88));
RUD_AGAIN
goto L6;
L7:;
if (AT64(v6, 104) == 0) goto L6;
rud_dealloc(RUD_AS AT64(v6, 88));
RUD_AGAIN
L6:;
TEST(a0);
a1 = AT64(a0, 16);
SET64(v6, 672, 0u);
SET64(v6, 680, 0u);
SET64(v6, 664, v6 + 728u);
i1 = in_std_alloc_vec_Vec_move_to_795f5fd3dc7a282e(RUD_AS v6 + 664u, ((a1 + 4u) & 65535u) + 7u);
RUD_AGAIN
if (i1 == 0) {
if (AT64(v6, 680) == 0) goto L140;
rud_dealloc(RUD_AS AT64(v6, 664));
RUD_AGAIN
goto L140;
}
a1 = AT64(v6, 680);
SET64(v6, 719, a1);
a2 = AT64(v6, 672);
SET64(v6, 711, a2);
a3 = AT64(v6, 664);
SET64(v6, 703, a3);
SET64(v6, 520, a3);
SET64(v6, 528, a2);
SET64(v6, 536, a1);
SET16(v6, 456, ((v16 >> 8) | 24u) | (v16 << 8));
i1 = in_std_alloc_vec_Vec_extend_from_slice_d4fc6a806bb7b0db(RUD_AS v6 + 520u, v6 + 456u, 2u);
RUD_AGAIN
if ((i1 & 255u) == 0) {
SET16(v6, 360, ((v13 >> 8) | 192u) | (v13 << 8));
i1 = in_std_alloc_vec_Vec_extend_from_slice_d4fc6a806bb7b0db(RUD_AS v6 + 520u, v6 + 360u, 2u);
RUD_AGAIN
if (i1 & 255u) goto L143;
v13 = AT16(a0, 16) + 4u;
SET16(v6, 328, (v13 << 8) | ((v13 & 65280u) >> 8));
i1 = in_std_alloc_vec_Vec_extend_from_slice_d4fc6a806bb7b0db(RUD_AS v6 + 520u, v6 + 328u, 2u);
RUD_AGAIN
if ((i1 & 255u) == 0) goto L142;
if (AT64(v6, 536) == 0) goto L140;
rud_dealloc(RUD_AS AT64(v6, 520));
RUD_AGAIN
goto L140;
}
if (AT64(v6, 536) == 0) goto L140;
rud_dealloc(RUD_AS AT64(v6, 520));
RUD_AGAIN
goto L140;
L143:;
if (AT64(v6, 536) == 0) goto L140;
rud_dealloc(RUD_AS AT64(v6, 520));
RUD_AGAIN
goto L140;
L142:;
SET8(v6, 666, v14);
SET8(v6, 665, 15u);
SET8(v6, 664, v17 | 32u);
i1 = in_std_alloc_vec_Vec_extend_from_slice_d4fc6a806bb7b0db(RUD_AS v6 + 520u, v6 + 664u, 3u);
RUD_AGAIN
if (i1 & 255u) goto L145;
SET16(v6, 488, (v15 << 8) | ((v15 & 65280u) >> 8));
i1 = in_std_alloc_vec_Vec_extend_from_slice_d4fc6a806bb7b0db(RUD_AS v6 + 520u, v6 + 488u, 2u);
RUD_AGAIN
if (i1 & 255u) goto L145;
i1 = in_std_alloc_vec_Vec_extend_from_slice_d4fc6a806bb7b0db(RUD_AS v6 + 520u, AT64(a0, 8), AT64(a0, 16));
RUD_AGAIN
if ((i1 & 255u) == 0) goto L139;
if (AT64(v6, 536) == 0) goto L140;
rud_dealloc(RUD_AS AT64(v6, 520));
RUD_AGAIN
goto L140;
L145:;
if (AT64(v6, 536) == 0) goto L140;
rud_dealloc(RUD_AS AT64(v6, 520));
RUD_AGAIN
L140:;
in_std_alloc_arc_Arc_drop_c3b6ee2ab0dfb523(RUD_AS a0);
RUD_AGAIN
goto L5;
L139:;
a3 = AT64(v6, 528);
a1 = AT64(v6, 520);
j1 = AT64(v6, 536);
in_std_alloc_arc_Arc_drop_c3b6ee2ab0dfb523(RUD_AS a0);
RUD_AGAIN
in_mm_told_answer_tell_text(RUD_AS v6 + 8u, a1, a3, v10, a4);
if (j1 == 0) goto L2;
rud_dealloc(RUD_AS a1);
RUD_AGAIN
goto L2;
L5:;
i1 = 0u;
goto L3;
L4:;
i1 = 14u;
L3:;
TEST(j0);
SET32(j0, 16, i1);
SET64(v6, 8, 2u);
FILL_FEW(v6 + 20u, 0u, 36u);
L2:;
COPY_FEW(a5, v6 + 8u, 48u);
RUD_G0 = v6 + 736u;
RUD_G1 = 0u;
}

static void in_mm_service_showing_Shown_of(RUD_IT u64 a0, u64 a1) {
u32 v10 = 0, v11 = 0;
u64 v2 = 0, v3 = 0, v4 = 0, v5 = 0, v6 = 0, v7 = 0, v8 = 0, v9 = 0;
RUD_HERE
v2 = RUD_G0 - 32u;
RUD_G0 = v2;
if ((s64)v2 >= (s64)16u) {
TEST(a1);
TEST(v2);
SET64(v2, 8, AT64(a1, 120));
SET64(v2, 16, AT64(a1, 128));
SET64(v2, 24, AT64(a1, 136));
v10 = AT8(a1, 0);
v3 = GET64(a1 + (v10 ? 40ull : 24ull), 0);
v4 = (u64)AT8(a1, 112);
v5 = AT64(a1, 16);
v6 = AT64(a1, 152);
v7 = AT64(a1, 160);
v8 = AT64(a1, 168);
v11 = AT8(a1, 104);
v9 = in_mm_store_any_AnyStorePacketStore_oldest(RUD_AS a1);
a1 = in_mm_store_any_AnyStorePacketStore_newest(RUD_AS a1);
TEST(a0);
SET16(a0, 1, 0u);
SET8(a0, 0, v10);
SET8(a0, 3, 0u);
SET32(a0, 41, 0u);
SET8(a0, 40, v11);
SET64(a0, 32, v8);
SET64(a0, 24, v7);
SET64(a0, 16, v6);
SET32(a0, 12, 0u);
SET32(a0, 8, (u32)v3);
SET32(a0, 4, (u32)v5);
SET32(a0, 44, 0u);
SET64(a0, 48, v4);
SET64(a0, 56, AT64(v2, 8));
SET64(a0, 64, AT64(v2, 16));
SET64(a0, 72, AT64(v2, 24));
SET64(a0, 88, a1);
SET64(a0, 80, v9);
RUD_G0 = v2 + 32u;
return;
}
rud_trap();
}

static void in_rudlayog_memory_state(RUD_IT u64 a0, u64 a1, u64 a2, u64 a3, u64 a4) {
u32 v13 = 0, v14 = 0, v15 = 0, i0 = 0;
u64 v5 = 0, v6 = 0, v7 = 0, v8 = 0, v9 = 0, v10 = 0, v11 = 0, v12 = 0;
RUD_HERE
i0 = in_rattle_enter(RUD_AS0);
if (i0) {
rud_trap();
}
v5 = RUD_G0 - 176u;
RUD_G0 = v5;
if ((s64)v5 >= (s64)16u) {
TEST(v5);
SET8(v5, 54, 0u);
SET16(v5, 52, 0u);
FILL_FEW(v5, 0u, 48u);
TEST(a3);
SET32(a3, 0, 255u);
FILL_FEW(a3 + 4u, 0u, 84u);
v6 = a0 + 8u;
TEST(v6);
if (AT8(v6, 0) == 0) {
TEST(a4);
SET32(a4, 0, 3u);
FILL_FEW(a4 + 4u, 0u, 44u);
goto L4;
}
SET8(v6, 0, 0u);
TEST(a0);
v6 = AT64(a0, 0);
SET64(v5, 152, 0u);
SET8(v5, 160, 0u);
FILL_FEW(v5 + 56u, 0u, 96u);
in_mm_service_reading_id_of(RUD_AS v5 + 152u, a1 + (a1 == 0 ? 4096ull : 0ull), a2);
a1 = AT64(v5, 153);
if (AT8(v5, 152) == 0) {
SET64(v5, 168, a1);
TEST(v6);
a1 = AT64(v6, 0) - 192u;
a2 = AT64(v6, 8) + 1u;
L9:;
a2 = a2 - 1u;
if (a2 == 0) {
v14 = 3u;
i0 = 0u;
goto L7;
}
a1 = a1 + 192u;
i0 = in_mm_base_id_StoreIdPartialEq_eq(RUD_AS a1, v5 + 168u);
if (i0 == 0) goto L9;
in_mm_service_showing_Shown_of(RUD_AS v5 + 56u, a1 + 16u);
v14 = AT8(v5, 56);
a1 = AT64(v5, 60);
v15 = AT8(v5, 96);
a2 = AT64(v5, 72);
v7 = AT64(v5, 80);
v8 = AT64(v5, 88);
v9 = AT64(v5, 136);
v10 = AT64(v5, 144);
v11 = AT64(v5, 112);
v12 = AT64(v5, 120);
v13 = AT8(v5, 104) == 1u;
SET64(a3, 80, v13 ? AT64(v5, 128) : 0ull);
SET64(a3, 72, v13 ? v12 : 0ull);
SET64(a3, 64, v13 ? v11 : 0ull);
SET64(a3, 56, v10);
SET64(a3, 48, v9);
SET64(a3, 40, v8);
SET64(a3, 32, v7);
SET64(a3, 24, a2);
SET32(a3, 20, 0u);
SET32(a3, 16, v13);
SET32(a3, 12, v15 & 1u);
SET64(a3, 4, a1);
SET32(a3, 0, v14 != 0u);
FILL_FEW(a4, 0u, 48u);
goto L6;
}
v13 = (u32)(a1 >> 16);
v14 = (u32)a1;
i0 = (u32)(a1 >> 8);
L7:;
v15 = i0;
SET8(v5, 54, v13);
SET8(v5, 53, v15);
SET8(v5, 52, v14);
in_mm_c_memory_refused(RUD_AS v5, v5 + 52u);
COPY_FEW(a4, v5, 48u);
L6:;
SET64(a0, 0, v6);
SET8(a0, 8, 1u);
L4:;
RUD_G0 = v5 + 176u;
goto L2;
}
rud_trap();
L2:;
RUD_G1 = 0u;
}

static void in_rudlayog_memory_store(RUD_IT u64 a0, u64 a1, u64 a2, u64 a3) {
u32 v15 = 0, v16 = 0, v17 = 0, v18 = 0, i0 = 0, i1 = 0;
u64 v4 = 0, v5 = 0, v6 = 0, v7 = 0, v8 = 0, v9 = 0, v10 = 0, v11 = 0, v12 = 0, v13 = 0, v14 = 0, j0 = 0;
RUD_HERE
i0 = in_rattle_enter(RUD_AS0);
if (i0) {
rud_trap();
}
v4 = RUD_G0 - 320u;
RUD_G0 = v4;
if ((s64)v4 >= (s64)16u) {
TEST(a2);
SET64(a2, 8, 0u);
SET64(a2, 0, 0u);
SET32(a2, 16, 255u);
FILL_FEW(a2 + 20u, 0u, 84u);
v5 = a0 + 8u;
TEST(v5);
if (AT8(v5, 0) == 0) {
TEST(a3);
SET32(a3, 0, 3u);
FILL_FEW(a3 + 4u, 0u, 44u);
goto L4;
}
SET8(v5, 0, 0u);
TEST(a0);
v6 = AT64(a0, 0);
FILL_FEW(v4 + 112u, 0u, 96u);
TEST(v4);
SET32(v4, 11, 0u);
SET32(v4, 8, 0u);
j0 = a3;
TEST(v6);
if (AT64(v6, 8) > a1) {
a1 = AT64(v6, 0) + (a1 * 192u);
TEST(a1);
v7 = AT64(a1, 0);
v16 = AT8(a1, 8);
v5 = v4 + 112u;
in_mm_service_showing_Shown_of(RUD_AS v5, a1 + 16u);
COPY_FEW(v4 + 15u, v5, 96u);
COPY_FEW(v4 + 217u, v4 + 8u, 103u);
SET8(v4, 216, v16);
SET64(v4, 208, v7);
a1 = 0u;
L8:;
if (GET8((v4 + 208u) + a1, 0) == 32u) {
v5 = a1;
goto L9;
}
v5 = 8u;
a1 = a1 + 1u;
if (a1 != 8u) goto L8;
L9:;
a1 = AT64(v4, 280);
v8 = AT64(v4, 288);
v9 = AT64(v4, 296);
v17 = AT8(v4, 224);
v10 = AT64(v4, 228);
v18 = AT8(v4, 264);
v15 = AT8(v4, 272);
v11 = AT64(v4, 240);
v12 = AT64(v4, 248);
v13 = AT64(v4, 256);
v14 = AT64(v4, 304);
SET64(a2, 72, AT64(v4, 312));
SET64(a2, 64, v14);
SET64(a2, 56, v13);
SET64(a2, 48, v12);
SET64(a2, 40, v11);
SET32(a2, 36, 0u);
v15 = v15 == 1u;
SET32(a2, 32, v15);
SET32(a2, 28, v18 & 1u);
SET64(a2, 20, v10);
SET32(a2, 16, v17 != 0u);
SET32(a2, 12, v16);
SET32(a2, 8, (u32)v5);
SET64(a2, 0, v7);
SET64(a2, 96, v15 ? v9 : 0ull);
SET64(a2, 88, v15 ? v8 : 0ull);
SET64(a2, 80, v15 ? a1 : 0ull);
FILL_FEW(v4 + 208u, 0u, 44u);
i1 = 0u;
goto L6;
}
FILL_FEW(v4 + 208u, 0u, 44u);
i1 = 5u;
L6:;
TEST(j0);
SET32(j0, 0, i1);
COPY_FEW(a3 + 4u, v4 + 208u, 44u);
SET64(a0, 0, v6);
SET8(a0, 8, 1u);
L4:;
RUD_G0 = v4 + 320u;
goto L2;
}
rud_trap();
L2:;
RUD_G1 = 0u;
}

/* ---- The data of the library. */
static const u8 rud_data_0[] = {
116,114,117,101,102,97,108,115,101,0,0,0,0,0,0,0,1,0,0,0,0,0,0,0,10,0,0,0,0,0,0,0,
100,0,0,0,0,0,0,0,232,3,0,0,0,0,0,0,16,39,0,0,0,0,0,0,160,134,1,0,0,0,0,0,
64,66,15,0,0,0,0,0,128,150,152,0,0,0,0,0,0,225,245,5,0,0,0,0,0,202,154,59,0,0,0,0,
0,228,11,84,2,0,0,0,0,232,118,72,23,0,0,0,0,16,165,212,232,0,0,0,0,160,114,78,24,9,0,0,
0,64,122,16,243,90,0,0,0,128,198,164,126,141,3,0,0,0,193,111,242,134,35,0,0,0,138,93,120,69,99,1,
0,0,100,167,179,182,224,13,0,0,232,137,4,35,199,138,63,59,161,6,41,170,63,17,90,214,59,146,214,83,244,238,
7,197,36,164,89,202,199,74,248,101,101,27,102,180,88,149,73,246,45,13,240,188,121,93,118,191,62,162,127,225,174,186,
220,115,121,16,44,44,216,244,83,111,206,138,223,153,90,233,105,232,75,138,155,27,7,121,148,5,193,182,43,160,216,145,
132,226,222,108,130,226,72,151,249,70,113,164,54,200,78,182,37,155,22,8,35,27,27,253,183,152,141,77,68,122,226,227,
247,32,14,229,245,240,48,254,114,127,120,176,106,140,109,142,53,169,81,94,51,45,189,189,79,159,150,92,133,239,8,178,
130,19,230,53,128,120,44,173,35,71,188,179,102,43,139,222,49,204,175,33,80,203,59,76,118,172,85,48,32,251,22,139,
61,191,27,42,36,190,74,223,147,23,107,60,232,185,220,173,13,175,162,52,173,109,29,215,120,221,133,75,98,232,83,217,
104,173,229,64,140,100,114,134,107,170,51,111,61,113,212,135,194,24,31,81,175,253,14,104,6,149,0,203,140,141,201,169,
242,222,102,37,27,189,18,2,72,186,192,253,239,240,59,212,87,75,96,247,48,182,75,1,109,116,152,254,149,118,165,132,
45,94,56,53,189,163,158,65,136,145,62,126,59,212,206,165,185,117,134,130,172,76,6,82,234,53,206,93,74,137,66,207,
147,9,148,209,235,239,67,115,178,225,160,122,206,149,137,129,248,11,249,197,230,235,20,16,31,26,73,25,66,251,235,161,
246,78,119,119,224,38,26,212,166,96,155,159,18,250,102,202,180,34,85,149,152,176,32,137,208,56,130,71,151,184,0,253,
176,53,85,93,95,110,180,85,130,99,177,140,94,115,32,158,29,131,170,52,247,137,33,235,98,188,221,47,54,144,168,197,
228,35,213,1,117,236,233,165,123,43,213,187,67,180,18,247,110,54,37,33,201,51,178,71,45,59,101,85,170,176,107,154,
10,132,110,105,187,192,158,153,248,137,190,234,212,156,6,193,13,37,202,67,234,112,6,192,118,44,110,37,10,68,72,241,
40,87,94,106,146,6,4,56,202,219,100,87,134,42,205,150,242,236,245,4,55,8,5,198,188,18,62,237,39,117,128,188,
46,104,51,198,68,74,134,247,107,151,141,232,113,146,160,235,29,33,224,251,106,238,179,122,163,126,88,49,135,91,68,147,
100,41,216,186,5,234,96,89,76,158,174,253,104,114,21,184,189,51,142,41,135,36,185,111,223,69,26,61,3,207,26,230,
86,224,248,121,212,182,211,165,171,107,48,6,98,193,208,143,108,24,119,152,137,164,72,143,150,134,188,135,186,241,196,179,
135,222,148,254,171,205,26,51,60,168,171,41,41,46,182,224,20,11,29,127,139,192,240,159,37,73,11,186,217,220,113,140,
217,77,228,94,174,240,236,7,111,27,142,40,16,84,142,175,80,97,157,246,217,44,232,201,74,162,177,50,20,233,113,219,
210,92,34,58,8,28,49,190,110,5,175,159,172,49,39,137,6,244,170,72,10,99,189,109,202,198,154,199,23,254,112,171,
8,177,213,218,204,187,44,9,125,120,129,185,157,61,77,214,165,142,197,8,96,245,187,37,78,235,240,147,130,70,240,133,
78,242,246,10,184,242,42,175,33,38,237,56,35,88,108,167,225,174,180,13,102,175,245,26,170,111,40,7,44,110,71,209,
77,237,144,200,159,141,217,80,202,69,121,132,219,164,204,130,160,40,181,186,7,241,15,229,60,151,151,101,18,206,127,163,
200,114,98,169,73,237,83,30,12,125,253,254,150,193,95,204,122,15,187,19,156,232,232,37,79,220,188,190,252,177,119,255,
172,233,84,140,97,145,177,119,177,9,54,247,61,207,170,159,23,36,106,239,185,245,157,213,29,140,3,117,13,131,149,199,
29,173,68,107,40,115,5,75,37,111,68,210,208,227,122,249,50,236,10,67,249,103,227,78,119,197,106,131,98,206,236,155,
63,167,205,147,247,65,156,34,213,118,69,36,251,1,232,194,15,17,193,120,117,82,67,107,138,212,86,237,121,2,162,243,
169,170,120,107,137,19,10,131,214,68,86,52,140,65,69,152,83,213,86,198,107,152,204,35,12,214,107,65,239,145,86,190,
168,138,236,183,134,190,191,44,143,203,198,17,107,54,236,237,169,214,243,50,20,215,247,123,57,63,28,235,2,162,179,148,
83,204,176,63,217,204,245,218,7,79,227,165,131,138,224,185,104,255,156,143,15,64,179,209,201,34,92,143,36,173,88,232,
161,31,194,185,9,8,16,35,190,149,153,217,54,108,55,145,138,167,50,40,12,10,212,171,45,251,255,143,68,71,133,181,
108,81,63,50,143,12,201,22,249,249,255,179,21,153,230,226,227,146,103,127,217,167,61,174,59,252,127,144,173,31,208,141,
156,119,65,223,207,17,205,153,74,251,159,244,152,39,68,177,131,213,17,215,67,86,64,64,29,250,199,49,127,49,149,221,
114,37,107,102,234,53,40,72,82,252,28,127,239,62,125,138,207,238,5,0,101,67,50,218,102,59,228,94,171,142,28,173,
130,106,7,64,62,212,190,144,64,74,157,54,86,178,99,216,145,162,4,232,166,68,119,90,104,78,34,226,117,79,62,135,
54,203,5,162,208,21,21,113,2,226,170,90,83,227,13,169,3,62,135,202,68,91,90,13,131,154,85,49,40,92,81,211,
194,134,148,254,10,121,88,232,145,128,213,30,153,217,18,132,114,168,57,190,77,151,110,98,182,224,138,102,255,143,23,165,
143,18,200,45,33,61,10,251,227,152,45,64,255,115,93,206,153,11,157,188,52,102,230,124,142,127,28,136,127,104,250,128,
128,78,196,235,193,255,31,28,114,159,35,106,159,2,57,161,32,98,181,102,178,255,39,163,78,135,172,68,71,67,135,201,
168,186,98,0,159,255,241,75,34,169,215,21,25,20,233,251,169,180,61,96,195,63,119,111,181,201,166,173,143,172,113,157,
211,33,77,56,180,15,85,203,34,124,16,153,179,23,206,196,72,106,96,70,161,83,42,126,43,155,84,127,160,157,1,246,
109,66,252,203,68,116,218,46,251,224,148,79,132,2,193,153,8,83,251,254,85,17,145,250,57,25,122,99,37,67,49,192,
202,39,186,126,171,85,53,121,136,159,88,188,238,147,61,240,222,88,52,47,139,85,193,75,181,99,183,53,117,124,38,150,
22,111,1,251,237,170,177,158,162,60,37,131,146,27,176,187,220,202,193,121,169,21,94,70,203,139,238,35,119,34,156,234,
201,30,25,236,137,205,250,11,95,23,117,118,138,149,161,146,123,102,31,103,236,128,249,206,54,93,18,20,237,250,73,183,
26,64,231,128,39,225,183,130,132,244,22,89,168,121,28,229,16,136,144,176,184,236,178,209,210,88,174,55,9,204,49,143,
21,170,180,220,230,167,31,134,7,239,153,133,11,63,254,178,154,212,225,147,224,145,167,103,201,106,0,103,206,206,189,223,
224,36,109,92,44,187,200,224,189,66,96,0,65,161,214,139,24,110,136,115,247,233,250,88,109,83,120,64,145,73,204,174,
158,137,106,80,117,164,57,175,72,104,150,144,245,91,127,218,3,150,66,82,201,6,132,109,45,1,94,122,121,153,143,136,
131,59,211,166,123,8,229,200,120,129,245,216,215,127,179,170,100,10,136,144,154,74,30,251,214,225,50,207,205,95,96,213,
127,6,85,154,160,238,242,92,38,205,127,161,224,59,92,133,30,72,234,192,72,170,47,244,111,192,223,201,216,74,179,166,
38,218,36,241,218,148,59,241,139,176,87,252,142,29,96,208,88,8,183,214,8,61,197,118,87,206,182,93,121,18,60,130,
110,202,100,12,75,140,118,84,237,129,36,181,23,23,203,162,9,253,125,207,93,47,148,169,104,162,109,162,221,220,125,203,
76,124,93,67,53,59,249,211,2,11,9,11,21,84,93,254,175,109,26,74,1,197,123,196,225,166,229,38,141,84,250,158,
27,9,161,156,65,182,154,53,154,16,159,112,176,233,184,198,98,75,201,3,210,99,1,195,192,212,198,140,28,36,103,248,
29,207,93,66,99,222,224,121,248,68,252,215,145,118,64,155,228,66,245,18,252,21,89,152,54,86,251,77,54,148,16,194,
157,147,178,23,123,91,111,62,196,43,122,225,67,185,148,242,66,156,207,238,44,153,5,167,90,91,236,108,202,243,156,151,
83,131,131,42,120,255,198,80,49,114,39,8,189,48,132,189,40,100,36,53,86,191,248,164,189,78,49,74,236,60,229,236,
153,190,54,225,149,119,27,135,54,209,94,174,19,70,15,148,63,110,132,89,123,85,226,40,132,133,246,153,152,23,19,185,
207,137,229,47,218,234,26,51,229,38,116,192,126,221,87,231,33,118,239,93,200,210,240,63,79,152,72,56,111,234,150,144,
169,83,107,117,122,7,237,15,99,190,90,6,11,165,188,180,148,40,198,18,89,73,232,211,251,109,241,199,77,206,235,225,
92,217,187,171,215,45,113,100,189,228,246,156,240,96,51,141,179,207,170,150,77,121,141,189,236,157,52,196,44,57,128,176,
160,131,85,252,160,215,240,236,103,197,65,245,119,71,160,220,68,114,181,157,196,134,22,244,96,27,73,249,170,44,228,137,
213,206,34,197,117,40,28,49,57,98,155,183,213,55,93,172,139,130,107,54,147,50,99,125,199,58,130,37,203,133,116,215,
151,49,3,2,156,255,93,174,188,100,113,247,158,211,168,134,252,253,131,2,131,127,245,217,235,189,77,181,134,8,83,168,
123,253,36,195,99,223,114,208,102,45,161,98,168,202,103,210,109,30,247,89,158,203,71,66,96,188,164,61,169,222,128,131,
8,230,116,240,133,190,217,82,120,235,13,141,83,22,97,164,139,31,146,108,39,46,144,103,86,102,81,112,232,91,121,205,
182,83,219,163,216,28,186,0,246,223,50,70,113,217,107,128,164,40,210,204,14,164,232,128,243,151,191,151,205,207,134,160,
205,178,6,128,18,205,34,97,240,125,175,253,192,131,168,200,129,95,8,32,87,128,107,121,108,93,27,61,177,164,210,250,
176,59,5,116,54,48,227,203,99,26,49,198,238,166,195,156,156,138,6,17,68,252,219,190,252,96,189,119,170,144,244,195,
68,45,72,21,85,251,146,238,59,185,172,21,213,180,241,244,74,28,77,45,21,221,27,117,197,243,139,45,5,17,23,153,
93,99,160,120,90,212,98,210,182,240,238,120,70,213,92,191,52,124,200,22,113,137,251,134,228,172,42,23,152,10,52,239,
160,77,61,174,230,53,93,212,14,172,122,14,159,134,128,149,9,161,204,89,96,131,116,137,18,87,25,210,70,168,224,186,
75,201,63,112,56,164,209,43,215,172,159,134,88,210,152,233,207,221,39,70,163,6,99,123,6,204,35,84,119,131,255,145,
66,213,177,23,76,200,59,26,8,191,44,41,85,100,127,182,147,74,158,29,95,186,202,32,202,238,119,115,106,61,31,228,
156,238,130,114,123,180,126,84,62,245,42,136,98,134,147,142,67,170,35,79,154,97,158,233,141,178,53,42,251,103,56,178,
212,148,236,226,0,250,5,100,49,31,195,244,249,129,198,222,4,221,211,141,64,188,131,222,126,243,249,56,60,17,60,139,
69,212,72,177,80,171,36,150,94,112,56,71,139,21,11,174,87,9,155,221,36,214,173,59,118,140,6,25,238,218,141,217,
214,229,128,10,215,165,76,229,201,23,164,207,212,168,248,135,76,31,33,205,76,207,159,94,188,29,141,3,10,211,246,169,
31,103,105,0,32,195,71,118,43,101,112,132,204,135,116,212,115,224,65,0,244,217,236,41,59,63,198,210,223,212,200,132,
144,88,82,0,113,16,104,244,9,207,119,199,23,10,251,165,180,238,102,64,141,20,130,113,204,194,85,185,157,204,121,207,
48,85,64,72,216,76,241,198,191,153,213,147,226,31,172,129,124,106,80,90,14,160,173,184,47,0,203,56,219,39,23,162,
28,133,228,240,17,8,217,166,59,192,253,6,210,241,156,202,99,166,29,109,22,74,143,144,74,48,189,136,70,46,68,253,
254,135,50,4,78,142,89,154,46,62,118,21,236,156,74,158,253,41,63,133,225,241,239,64,186,205,211,26,39,68,221,197,
124,244,142,230,89,238,43,209,40,193,136,225,48,149,84,247,206,88,25,48,248,116,187,130,185,120,245,140,62,221,148,154,
1,175,31,60,54,82,106,227,231,214,50,48,142,20,58,193,193,154,39,203,195,230,68,220,161,140,63,188,177,153,136,241,
185,192,248,94,58,16,171,41,229,183,167,21,15,96,245,150,231,240,182,246,72,212,21,116,222,165,17,219,18,184,178,188,
33,173,100,52,91,73,27,17,86,15,214,145,23,102,223,235,52,236,190,0,217,13,177,202,149,201,37,187,206,159,107,147,
66,167,238,64,79,81,93,61,251,59,239,105,194,135,70,184,18,81,42,17,163,165,180,12,250,10,107,4,179,41,88,230,
171,114,186,234,133,231,240,71,220,230,194,226,15,26,247,143,86,15,105,101,103,33,237,89,147,160,115,219,147,224,244,179,
44,83,195,62,193,105,104,48,184,136,80,210,184,24,242,224,251,19,58,199,24,66,65,30,115,85,114,131,115,79,151,140,
250,152,8,249,158,146,209,229,207,234,78,100,80,35,189,175,57,191,74,183,70,247,69,223,131,165,98,125,36,108,172,219,
131,183,142,50,140,186,139,107,114,167,93,206,150,195,75,137,100,101,50,63,47,169,110,6,79,17,245,129,124,180,158,171,
189,254,254,14,123,83,10,200,162,85,114,162,155,97,134,214,54,95,95,233,44,116,6,189,133,117,135,69,1,253,19,134,
4,55,183,35,56,17,72,44,231,82,233,150,65,252,152,167,197,4,165,44,134,21,90,247,160,167,163,252,81,59,127,209,
251,34,231,219,115,77,152,154,196,72,230,61,19,133,239,130,186,235,224,210,208,96,62,193,245,218,95,13,88,102,171,163,
168,38,153,7,5,249,141,49,179,209,183,16,238,63,150,204,82,112,127,73,70,119,241,253,31,198,229,148,233,207,187,255,
51,166,239,237,139,234,182,254,211,155,15,253,241,97,213,159,192,143,107,233,46,165,100,254,200,130,83,124,110,186,202,199,
176,115,198,163,122,206,253,61,123,99,104,27,10,105,189,249,78,8,92,166,12,161,190,6,45,62,33,81,166,97,22,156,
98,10,243,207,79,73,110,72,184,141,105,229,15,250,27,195,250,204,239,195,163,219,137,90,38,241,195,222,147,248,226,243,
28,224,117,90,70,41,150,248,183,118,58,107,92,219,109,152,35,88,19,241,151,179,187,246,101,20,9,134,51,82,137,190,
44,46,88,237,125,160,106,116,127,89,139,103,192,166,43,238,220,28,87,180,78,164,194,168,239,23,183,64,56,72,219,148,
19,228,108,97,98,77,243,146,235,221,228,80,70,26,18,186,23,29,200,249,186,32,176,119,102,21,30,229,215,160,150,232,
46,18,29,220,116,20,206,10,96,205,50,239,134,36,94,145,186,86,36,19,146,153,129,13,184,128,255,170,168,173,181,181,
105,108,237,151,246,255,225,16,230,96,191,213,18,25,35,227,193,99,244,30,250,63,141,202,143,156,151,197,171,239,245,141,
178,124,177,166,248,143,48,189,179,131,253,182,150,107,115,177,222,219,93,208,246,179,124,172,160,228,188,100,124,70,208,221,
107,169,58,66,122,240,205,107,228,14,246,190,13,44,162,138,198,83,201,210,152,108,193,134,157,146,179,46,17,183,74,173,
183,168,123,7,191,199,113,232,68,119,96,122,213,100,157,216,114,73,173,100,215,28,71,17,139,74,124,108,5,95,98,135,
207,155,216,61,13,228,152,213,45,93,155,199,198,246,58,169,195,194,78,141,16,29,255,74,121,52,130,121,120,180,137,211,
186,57,81,88,42,114,223,206,203,96,241,75,203,16,54,132,40,136,101,238,180,78,151,194,254,184,237,30,254,148,67,165,
50,234,254,41,98,34,61,115,62,39,169,166,61,122,148,206,95,82,63,90,125,53,6,8,135,184,41,136,102,204,28,129,
247,38,207,176,220,194,7,202,168,38,52,42,128,255,99,161,181,240,2,221,147,179,137,252,82,48,193,52,96,255,188,201,
226,172,67,212,120,32,172,187,103,124,241,65,56,63,44,252,13,76,170,132,75,148,75,213,192,237,54,41,131,167,155,157,
17,223,212,101,94,121,158,10,49,169,132,243,99,145,2,197,213,22,74,255,181,23,70,77,125,211,101,240,188,53,67,246,
69,78,142,191,209,206,75,80,46,164,63,22,150,1,234,153,214,225,113,47,134,194,94,228,57,141,207,155,251,129,100,192,
76,90,78,187,39,115,118,93,136,112,195,130,122,162,125,240,111,248,16,213,248,7,106,58,85,38,186,145,140,133,78,150,
139,54,85,10,247,137,4,137,234,175,40,182,239,38,226,187,46,132,234,204,116,172,69,43,229,219,178,163,171,176,218,234,
157,146,18,0,201,139,11,59,111,201,79,70,107,174,200,146,68,55,23,64,187,110,206,9,203,187,227,23,6,218,122,183,
21,5,29,16,106,10,66,204,189,170,220,157,135,144,89,229,45,35,18,74,130,70,169,159,182,234,169,194,84,250,87,143,
249,171,150,220,34,152,147,71,100,101,84,243,233,248,45,179,247,86,188,147,43,126,120,89,189,126,41,112,36,119,249,223,
90,182,85,60,219,78,235,87,54,239,25,198,118,234,251,139,241,35,107,11,146,34,230,237,3,107,160,119,20,229,250,174,
237,236,69,142,54,171,95,233,196,133,136,149,89,158,185,218,20,180,235,24,2,203,219,17,155,83,117,253,247,2,180,136,
25,161,38,159,194,189,82,214,129,168,210,252,181,3,225,170,95,73,240,70,51,109,231,75,162,82,7,124,163,68,153,213,
219,45,86,12,64,164,112,111,165,147,132,45,230,202,127,133,82,185,107,15,80,205,76,203,142,184,229,184,159,189,223,166,
167,167,70,19,164,0,32,126,178,38,31,167,7,173,151,208,200,40,12,140,102,0,212,142,47,120,115,200,36,204,94,130,
250,50,15,47,128,0,137,114,59,86,144,250,45,127,246,162,185,255,210,58,160,64,43,79,202,107,52,121,249,30,180,203,
168,191,135,73,200,16,246,226,188,134,129,215,183,38,161,254,201,215,244,45,125,202,217,13,54,244,176,230,50,184,36,159,
187,13,114,121,28,61,80,145,67,49,93,160,63,230,237,198,42,145,206,151,99,76,164,117,148,125,116,136,207,95,169,248,
186,26,225,62,190,175,134,201,124,206,72,181,225,219,105,155,104,97,153,206,173,91,232,251,27,2,155,34,218,82,68,194,
195,185,63,66,153,114,226,250,162,194,65,171,144,103,213,242,26,212,103,201,159,135,205,220,165,25,9,107,186,96,197,151,
32,201,193,187,135,233,0,84,15,96,203,5,233,184,182,189,104,59,178,170,233,35,1,41,19,56,62,71,35,103,36,237,
33,101,175,10,114,182,160,249,11,227,134,12,118,192,54,148,105,62,91,141,14,228,8,248,206,155,168,143,147,112,68,185,
4,14,178,48,18,29,11,182,194,194,146,115,184,140,149,231,194,72,111,94,43,242,198,177,185,185,59,72,243,119,189,144,
243,26,11,54,182,174,56,30,40,168,74,26,240,213,236,180,176,225,141,195,99,218,198,37,50,82,221,32,108,11,40,226,
14,173,56,90,126,72,156,87,95,83,138,148,35,7,89,141,81,216,198,240,157,90,131,45,55,232,172,121,236,72,175,176,
101,142,248,108,69,49,228,248,68,34,24,152,39,27,219,220,255,88,27,100,203,158,142,27,107,21,15,191,248,240,8,138,
63,47,34,61,126,70,114,226,197,218,210,238,54,45,139,172,15,187,106,204,29,216,14,91,119,145,135,170,132,248,173,215,
233,180,194,159,18,71,233,152,234,186,148,234,82,187,204,134,36,98,179,71,215,152,35,63,165,233,57,165,39,234,127,168,
173,58,160,25,13,127,236,142,14,100,136,142,177,228,159,210,172,36,4,48,104,207,83,25,137,62,21,249,238,238,163,131,
215,45,5,60,66,195,168,95,43,142,90,183,170,234,140,164,77,121,6,203,18,244,146,55,182,49,49,101,85,37,176,205,
208,11,228,190,139,216,187,226,17,191,62,95,85,23,142,128,196,14,157,174,174,206,106,91,214,110,14,183,42,157,177,160,
117,82,68,90,90,130,69,242,139,10,210,100,117,4,222,200,18,103,213,240,240,226,214,238,46,141,6,190,146,133,21,251,
107,96,133,150,214,77,70,85,61,24,196,182,123,115,237,156,134,184,38,60,76,225,151,170,76,30,117,164,90,208,40,196,
168,102,48,75,159,217,61,213,223,101,146,77,113,4,51,245,41,64,254,142,3,168,70,229,171,127,123,208,198,226,63,153,
51,208,189,114,4,82,152,222,150,95,154,132,120,219,143,191,64,68,109,143,133,102,62,150,124,247,192,165,86,210,115,239,
168,74,164,121,19,0,231,221,173,154,152,39,118,99,168,149,82,93,13,88,24,192,96,85,89,193,126,177,83,124,18,187,
166,180,16,110,30,240,184,170,175,113,222,157,104,27,215,233,232,112,202,4,19,150,179,202,13,7,171,98,33,113,38,146,
34,13,253,197,151,123,96,61,209,200,85,187,105,13,176,182,106,80,124,183,125,154,184,140,5,59,43,42,196,16,92,228,
66,178,173,146,142,96,243,119,227,4,91,154,122,138,185,142,211,30,89,55,178,56,240,85,28,198,241,64,25,237,103,178,
136,102,47,197,222,70,108,107,163,55,46,145,95,232,1,223,21,160,61,59,75,172,35,35,198,226,188,186,59,49,97,139,
26,8,13,10,94,151,236,171,119,27,108,169,138,125,57,174,33,74,144,140,53,189,231,150,85,34,199,83,237,220,199,217,
84,46,218,119,65,214,80,126,117,117,92,84,20,234,28,136,233,185,208,213,209,11,229,221,210,146,115,105,153,36,36,170,
100,232,68,75,198,78,94,149,135,119,208,195,191,45,173,212,62,17,11,239,59,241,90,189,180,74,98,218,151,60,236,132,
142,213,205,234,138,173,177,236,97,221,250,208,189,75,39,166,242,74,129,165,237,24,222,103,186,148,57,69,173,30,177,207,
215,206,112,135,148,207,234,128,244,252,67,75,44,179,206,129,141,2,77,169,121,131,37,161,49,252,20,94,247,95,66,162,
48,67,160,19,88,228,110,9,62,59,154,53,245,247,210,202,252,83,136,24,110,157,202,139,13,202,0,131,242,181,135,253,
125,52,85,207,100,162,94,119,72,126,224,145,183,209,116,158,157,129,42,3,254,74,54,149,218,157,88,118,37,6,18,198,
4,34,245,131,189,221,131,58,81,197,238,211,174,135,150,247,66,53,121,114,150,106,146,196,82,59,117,68,205,20,190,154,
147,130,23,15,60,5,183,117,39,138,146,149,0,154,109,193,56,99,221,18,139,198,36,83,177,44,247,186,128,0,201,241,
3,94,202,235,22,252,246,211,238,123,218,116,80,160,29,151,132,245,188,166,28,187,244,136,234,26,17,146,100,8,229,188,
229,50,108,208,227,233,49,43,165,97,149,182,125,74,30,236,207,159,67,98,46,50,255,58,7,93,29,146,142,238,146,147,
194,135,212,250,185,254,190,9,73,180,164,54,50,170,119,184,179,169,137,121,104,190,46,76,91,225,77,196,190,148,149,230,
16,10,246,75,1,55,157,15,217,172,176,58,247,124,29,144,148,140,243,158,193,132,132,83,15,216,92,9,53,220,36,180,
185,111,176,6,242,165,101,40,19,14,180,75,66,19,46,225,211,69,46,68,183,135,63,249,203,136,80,111,9,204,188,140,
72,215,57,21,165,105,143,247,254,170,36,203,11,255,235,175,27,77,136,90,14,68,115,181,190,213,237,189,206,254,230,219,
48,48,149,248,136,10,104,49,151,165,180,54,65,95,112,137,61,124,186,54,43,13,194,253,252,206,97,132,17,119,204,171,
76,27,105,4,118,144,50,61,188,66,122,229,213,148,191,214,15,177,193,194,73,154,63,166,181,105,108,175,5,189,55,134,
83,29,114,51,220,128,207,15,35,132,71,27,71,172,197,167,168,164,78,64,19,97,195,211,43,101,25,226,88,23,183,209,
233,38,49,8,172,28,90,100,59,223,79,141,151,110,18,131,163,112,61,10,215,163,112,61,10,215,163,112,61,10,215,163,
204,204,204,204,204,204,204,204,204,204,204,204,204,204,204,204,
};
static const u8 rud_data_1[] = {
128,
};
static const u8 rud_data_2[] = {
160,
};
static const u8 rud_data_3[] = {
200,
};
static const u8 rud_data_4[] = {
250,
};
static const u8 rud_data_5[] = {
64,156,
};
static const u8 rud_data_6[] = {
80,195,
};
static const u8 rud_data_7[] = {
36,244,
};
static const u8 rud_data_8[] = {
128,150,152,
};
static const u8 rud_data_9[] = {
32,188,190,
};
static const u8 rud_data_10[] = {
40,107,238,
};
static const u8 rud_data_11[] = {
249,2,149,
};
static const u8 rud_data_12[] = {
64,183,67,186,
};
static const u8 rud_data_13[] = {
16,165,212,232,
};
static const u8 rud_data_14[] = {
42,231,132,145,
};
static const u8 rud_data_15[] = {
128,244,32,230,181,
};
static const u8 rud_data_16[] = {
160,49,169,95,227,
};
static const u8 rud_data_17[] = {
4,191,201,27,142,
};
static const u8 rud_data_18[] = {
197,46,188,162,177,
};
static const u8 rud_data_19[] = {
64,118,58,107,11,222,
};
static const u8 rud_data_20[] = {
232,137,4,35,199,138,
};
static const u8 rud_data_21[] = {
98,172,197,235,120,173,
};
static const u8 rud_data_22[] = {
128,122,23,183,38,215,216,
};
static const u8 rud_data_23[] = {
144,172,110,50,120,134,135,
};
static const u8 rud_data_24[] = {
180,87,10,63,22,104,169,
};
static const u8 rud_data_25[] = {
161,237,204,206,27,194,211,0,0,0,0,0,0,0,0,160,132,20,64,97,81,89,132,0,0,0,0,0,0,0,0,200,
165,25,144,185,165,111,165,0,0,0,0,0,0,0,0,58,15,32,244,39,143,203,206,0,0,0,0,0,0,0,64,132,
9,148,248,120,57,63,129,0,0,0,0,0,0,0,80,229,11,185,54,215,7,143,161,0,0,0,0,0,0,0,164,222,
78,103,4,205,201,242,201,0,0,0,0,0,0,0,77,150,34,129,69,64,124,111,252,0,0,0,0,0,0,32,240,157,
181,112,43,168,173,197,157,0,0,0,0,0,0,40,108,5,227,76,54,18,25,55,197,0,0,0,0,0,0,50,199,198,
27,224,195,86,223,132,246,0,0,0,0,0,64,127,60,92,17,108,58,150,11,19,154,0,0,0,0,0,16,159,75,179,
21,7,201,123,206,151,192,0,0,0,0,0,212,134,30,32,219,72,187,26,194,189,240,0,0,0,0,128,68,20,19,244,
136,13,181,80,153,118,150,0,0,0,0,160,85,217,23,49,235,80,226,164,63,20,188,0,0,0,0,8,171,207,93,253,
37,229,26,142,79,25,235,0,0,0,0,229,202,161,90,190,55,207,208,184,209,239,146,0,0,0,64,158,61,74,241,173,
5,3,5,39,198,171,183,0,0,0,208,5,205,156,109,25,199,67,198,176,183,150,229,0,0,0,162,35,0,130,228,111,
92,234,123,206,50,126,143,0,0,128,138,44,128,162,221,139,243,228,26,130,191,93,179,0,0,32,173,55,32,11,213,110,
48,158,161,98,47,53,224,0,0,52,204,34,244,38,69,69,222,2,165,157,61,33,140,0,0,65,127,43,177,112,150,214,
149,67,14,5,141,41,175,0,64,17,95,118,221,12,60,76,123,212,81,70,240,243,218,0,200,106,251,105,10,136,165,15,
205,36,243,43,118,216,136,0,122,69,122,4,13,234,142,83,0,238,239,182,147,14,171,128,216,214,152,69,144,164,114,104,
128,233,171,164,56,210,213,80,71,134,127,43,218,166,71,65,240,113,235,102,99,163,133,36,217,103,95,182,144,144,153,81,
108,78,166,64,60,12,167,109,207,65,247,227,180,244,255,101,7,226,207,80,75,207,208,164,33,137,122,14,241,248,191,159,
68,237,129,18,143,129,130,13,106,43,25,82,45,247,175,199,149,104,34,215,242,33,163,144,68,118,159,166,248,244,155,57,
187,2,235,140,111,234,203,180,213,83,71,208,54,242,2,8,106,195,37,112,11,229,254,144,101,148,44,66,98,215,1,69,
34,154,23,38,39,79,159,245,126,185,183,210,58,77,66,214,170,128,157,239,240,34,199,178,222,167,101,135,137,224,210,139,
213,224,132,43,173,235,248,47,235,136,159,244,85,204,99,119,133,12,51,59,76,147,155,251,37,107,199,113,107,191,60,213,
166,207,255,73,31,120,194,122,239,69,57,78,70,239,139,138,144,195,127,28,39,22,243,172,181,203,227,240,139,117,151,86,
58,218,207,113,216,237,151,23,163,190,28,237,238,82,61,236,200,208,67,142,78,233,189,221,75,238,99,168,170,167,76,39,
251,196,212,49,162,99,237,106,239,116,62,169,202,232,143,248,28,251,36,95,69,94,148,68,43,18,142,83,253,226,179,54,
228,57,238,182,214,117,185,22,182,150,113,168,188,219,96,68,93,200,169,100,76,211,231,205,49,254,70,233,85,137,188,74,
58,29,234,190,15,228,144,65,190,189,152,99,171,171,107,221,136,164,164,174,19,29,181,209,45,237,126,60,150,150,198,20,
171,205,77,154,88,100,226,162,60,84,207,229,29,30,252,236,138,160,112,96,183,126,141,203,75,41,67,95,165,37,59,168,
173,200,140,56,101,222,176,190,158,243,19,183,14,239,73,18,217,250,175,134,254,21,221,55,67,120,108,50,105,53,110,171,
199,252,45,20,191,45,138,4,84,150,7,127,195,194,73,150,249,123,57,217,46,185,172,6,233,123,201,94,116,51,220,251,
247,218,135,143,122,231,215,163,113,237,61,187,40,160,105,253,218,232,180,153,172,240,134,12,206,104,13,234,50,8,196,188,
17,35,34,192,215,172,168,144,1,195,144,164,63,10,245,43,214,171,42,176,13,216,210,250,224,121,218,198,103,38,121,219,
101,171,26,142,8,199,131,56,89,24,145,184,1,112,87,82,63,86,161,177,202,184,164,134,111,94,181,38,2,76,237,38,
207,171,9,94,253,230,205,180,5,91,49,88,129,79,84,120,97,11,198,90,94,176,128,33,199,177,61,174,97,99,105,214,
57,142,119,241,117,220,160,233,56,30,205,25,58,188,3,76,200,113,213,109,147,19,201,35,199,101,64,160,72,171,4,95,
58,206,74,73,120,88,251,118,156,63,40,100,13,235,98,123,228,192,206,45,75,23,157,148,131,79,50,189,208,165,59,154,
29,113,66,249,29,93,196,121,100,227,126,236,68,143,202,0,101,13,147,119,101,116,245,203,30,78,207,19,139,153,126,32,
95,232,187,106,191,104,153,126,166,33,195,216,237,63,158,232,118,226,106,69,239,194,191,30,16,234,243,78,233,207,197,162,
20,155,197,22,171,179,239,18,74,114,88,209,241,161,187,229,236,128,59,238,74,208,149,151,220,142,174,69,110,138,42,31,
40,97,202,169,93,68,187,189,147,50,26,215,9,45,245,38,114,249,60,20,117,21,234,86,156,95,112,38,38,60,89,88,
231,27,166,44,105,77,146,108,131,119,12,176,47,139,111,46,225,162,207,119,195,224,182,71,100,149,15,156,251,109,11,122,
153,139,195,85,244,152,228,172,94,189,137,65,189,36,71,236,63,55,154,181,152,223,142,87,182,44,236,145,236,237,88,231,
15,197,0,227,126,151,178,237,227,55,103,182,103,41,47,225,83,246,192,155,94,61,223,116,238,130,0,210,224,121,189,108,
244,153,88,33,91,134,139,17,170,163,128,6,89,216,236,135,113,192,174,233,241,103,174,149,148,204,32,72,111,14,232,233,
141,112,26,100,238,1,218,221,220,127,20,141,5,9,49,178,88,134,144,254,52,65,136,21,212,159,89,240,70,75,189,222,
238,167,52,62,130,81,170,26,201,7,112,172,24,158,108,150,234,209,193,205,226,229,212,176,221,4,198,107,207,226,3,158,
50,35,153,192,173,15,133,28,21,134,183,70,131,219,132,69,255,107,191,48,153,83,166,99,154,103,101,24,100,18,230,22,
255,70,239,124,127,232,207,126,192,96,63,143,126,203,79,110,95,140,21,174,79,241,129,157,240,56,15,51,94,190,227,73,
119,239,154,153,163,109,162,197,44,7,211,191,245,173,92,28,85,171,1,128,12,9,203,246,247,200,199,47,115,217,115,99,
42,22,2,160,79,203,253,250,154,221,220,253,231,103,40,126,218,77,1,196,17,159,158,184,1,21,84,253,225,129,178,29,
81,161,1,53,214,70,198,38,66,26,169,124,90,34,31,101,165,9,66,194,139,216,247,88,105,176,233,141,120,117,51,95,
7,70,105,89,87,231,154,174,131,28,100,177,214,82,0,55,137,151,195,47,45,161,193,154,164,35,189,93,140,103,192,132,
107,125,180,123,120,9,242,224,70,54,150,186,183,64,248,50,99,206,80,77,235,69,151,152,216,195,59,169,229,80,182,255,
251,1,165,32,102,23,189,190,206,180,138,19,31,229,163,255,122,66,206,168,63,93,236,55,1,177,54,108,51,111,198,223,
140,233,128,201,71,186,147,132,65,93,68,71,0,11,184,23,240,35,225,187,217,168,184,229,145,116,21,89,192,13,166,29,
236,108,217,42,16,211,230,47,219,104,173,55,152,200,135,146,19,228,199,26,234,67,144,251,17,195,152,69,190,186,41,119,
24,221,121,161,228,84,180,122,214,243,254,214,109,41,244,148,94,84,216,201,29,106,225,12,102,88,95,166,228,153,24,29,
187,52,39,158,82,226,140,143,127,46,247,207,93,192,94,228,233,1,177,69,231,26,176,115,31,250,244,67,117,112,118,93,
100,66,29,23,161,33,220,168,83,28,121,74,73,6,106,186,126,73,114,174,4,149,137,146,104,99,23,157,219,135,4,105,
222,219,14,218,69,250,171,182,66,60,93,132,210,169,69,3,214,146,146,80,215,248,214,178,169,69,186,146,35,138,11,194,
197,155,91,146,134,91,134,30,20,215,104,119,172,108,142,50,183,130,242,54,104,242,167,38,217,12,67,149,215,7,50,255,
100,35,175,68,2,239,209,184,7,232,73,189,230,68,127,31,31,118,237,106,97,53,131,166,9,98,156,108,32,22,95,231,
166,211,168,197,185,2,164,15,140,122,195,135,168,219,54,161,144,8,19,55,104,3,205,137,151,44,218,84,73,73,194,100,
90,229,107,34,33,34,128,108,189,183,16,170,155,219,242,253,176,222,6,107,169,42,160,199,172,229,148,148,130,146,111,61,
93,150,200,197,83,53,200,249,23,31,186,57,35,119,203,140,244,187,58,183,168,66,250,251,110,83,20,4,118,42,255,215,
120,181,132,114,169,105,156,186,74,104,25,133,19,245,254,13,215,226,37,207,19,132,195,105,93,194,95,102,88,178,126,209,
140,91,239,194,24,101,244,97,122,217,251,63,119,47,239,2,56,153,213,121,47,191,152,250,216,207,250,15,85,251,170,3,
134,255,74,88,251,238,190,56,207,131,249,83,42,186,149,132,103,191,93,46,186,170,238,131,97,242,123,116,90,148,221,178,
160,151,250,92,180,42,149,228,249,238,154,17,113,249,148,223,136,61,57,116,97,117,186,93,184,170,1,86,205,55,122,23,
235,140,71,209,185,18,233,58,179,10,193,85,224,98,172,238,18,184,204,34,180,171,145,9,96,77,49,107,152,123,87,170,
23,230,127,43,161,22,182,11,184,160,253,133,126,90,237,148,157,223,95,118,73,156,227,7,115,132,190,19,143,88,20,125,
194,235,251,233,173,65,142,200,143,37,174,216,178,110,89,28,179,230,122,100,25,210,177,187,243,174,217,142,95,202,111,227,
95,160,153,189,159,70,222,84,88,13,72,185,123,222,37,238,59,4,128,214,35,236,138,106,174,16,154,167,26,86,175,233,
74,5,32,204,44,167,173,4,218,148,128,81,161,43,27,164,157,6,40,255,247,16,217,66,8,93,240,210,68,251,144,134,
34,4,121,255,154,170,135,83,74,116,172,7,22,58,53,40,43,69,87,191,65,149,169,232,92,145,151,137,155,136,66,242,
117,22,45,47,146,250,211,17,218,186,254,53,97,149,105,183,9,46,124,93,155,124,132,149,144,105,126,131,185,250,67,37,
140,57,219,52,194,155,165,187,244,3,94,228,103,249,148,46,239,7,18,194,178,2,207,245,120,194,186,238,224,27,29,125,
245,68,75,185,175,97,129,50,23,115,105,42,217,98,100,220,50,22,158,167,27,186,161,254,220,207,3,117,143,123,125,147,
191,155,133,145,162,40,202,62,212,195,68,82,115,218,92,120,175,2,231,53,203,178,252,167,100,250,106,19,136,8,58,171,
173,97,176,1,191,239,157,208,253,184,69,24,170,138,8,22,25,122,28,194,174,107,197,69,61,39,87,158,84,173,138,91,
159,152,163,114,154,198,246,75,134,120,246,226,84,172,54,153,99,63,166,135,32,60,154,221,167,22,180,27,106,87,132,127,
60,207,143,169,40,203,192,213,81,28,161,162,68,109,101,159,11,195,243,211,242,253,240,37,179,177,164,229,74,100,159,67,
231,89,120,196,183,158,150,238,31,222,13,159,93,61,135,20,97,112,150,181,101,70,188,234,167,85,209,6,181,12,169,89,
121,12,252,34,255,87,235,242,136,213,66,36,241,167,9,216,203,135,221,117,255,22,147,47,235,138,83,109,237,17,12,206,
190,233,84,83,191,220,183,250,165,109,168,200,104,22,143,129,46,36,42,40,239,211,229,188,135,68,105,125,1,110,249,16,
157,86,26,121,117,164,143,172,169,149,195,220,129,201,55,85,68,236,96,215,146,141,179,23,20,123,244,83,226,187,133,106,
85,39,57,141,247,112,224,142,236,204,120,116,109,149,147,98,149,184,67,184,154,70,140,178,39,0,151,209,200,122,56,187,
186,166,84,102,65,88,175,158,49,192,252,5,123,153,6,106,105,208,233,191,81,46,219,3,31,248,189,227,236,31,68,226,
65,34,242,23,243,252,136,195,38,118,173,28,232,39,213,90,210,170,238,221,47,60,171,116,176,211,216,35,226,113,138,241,
134,85,106,213,59,11,214,73,78,132,103,86,45,135,246,86,116,117,98,101,5,199,133,219,97,101,1,172,248,40,180,108,
209,18,187,190,198,56,167,82,186,190,1,215,54,51,225,199,133,215,105,110,248,6,209,115,52,23,97,70,2,192,236,156,
179,38,2,69,91,164,130,144,1,93,249,215,2,240,39,132,96,176,66,22,114,77,163,244,65,180,247,141,3,236,49,165,
120,92,211,155,206,32,204,113,82,161,117,113,4,103,126,206,150,51,200,66,2,41,255,134,211,132,233,198,98,0,15,65,
62,32,189,105,161,121,159,104,8,230,163,120,123,192,82,209,77,104,44,196,9,88,199,130,138,223,204,86,154,112,167,69,
97,130,55,53,12,46,249,145,182,11,64,118,96,166,136,203,124,177,66,161,199,188,155,53,164,14,208,147,248,207,106,254,
219,93,147,137,249,171,194,67,77,18,196,184,246,131,5,254,82,53,248,235,247,86,243,74,112,139,122,51,122,114,195,222,
83,33,123,243,90,22,152,92,76,46,89,192,24,79,116,214,168,233,89,176,241,27,190,115,223,121,111,240,222,98,17,12,
19,100,112,28,238,162,237,168,43,172,69,86,203,221,138,231,139,62,198,209,212,133,148,146,54,23,215,43,62,149,109,225,
46,206,55,6,74,167,185,55,4,221,204,182,141,250,200,153,186,193,197,135,28,17,232,162,34,10,64,146,152,156,29,160,
20,153,219,212,177,10,145,75,171,12,208,182,190,3,37,200,89,127,18,74,94,77,181,29,214,15,132,100,174,68,46,58,
48,31,151,220,181,160,226,210,229,137,210,254,236,234,92,36,126,115,222,169,113,164,141,71,95,44,135,62,168,37,116,173,
93,16,86,20,142,13,177,25,119,247,40,78,18,47,209,24,117,148,107,153,241,80,221,111,170,154,217,112,107,189,130,47,
201,60,227,255,150,82,138,11,85,1,16,77,198,108,99,123,251,11,220,191,60,231,172,78,170,1,84,224,247,71,60,90,
250,14,211,239,11,33,216,113,10,129,52,236,250,172,101,120,92,233,227,117,167,20,135,13,77,161,65,167,57,24,127,150,
179,227,92,83,209,217,168,80,160,9,18,17,72,222,30,124,160,28,52,168,69,16,211,50,4,70,171,10,237,74,147,77,
228,145,32,137,43,234,131,63,133,23,86,77,168,29,248,96,93,182,104,107,182,228,164,142,102,157,171,96,18,37,54,185,
244,227,66,6,228,29,206,25,96,66,107,124,43,215,193,243,120,206,233,131,174,210,128,31,248,18,134,91,246,76,178,48,
23,66,228,36,90,7,161,39,182,151,103,242,51,224,222,252,156,82,29,174,48,73,201,177,163,125,1,239,64,152,22,60,
68,167,164,217,124,155,251,78,134,238,96,149,40,31,142,165,138,232,6,8,46,65,157,226,39,42,185,186,242,166,241,78,
173,162,8,138,121,145,196,219,177,116,103,105,175,16,174,162,88,203,138,236,215,181,245,41,239,168,224,161,109,202,172,101,
23,191,214,243,166,145,153,243,42,211,88,10,9,253,23,63,221,110,204,176,16,246,191,176,245,7,239,76,75,252,221,142,
148,138,255,220,148,243,239,142,249,100,21,16,175,189,74,217,156,182,31,10,61,248,149,241,55,190,26,212,26,109,157,15,
68,164,167,76,76,118,187,237,197,109,33,137,97,200,132,19,85,141,209,95,223,83,234,180,155,228,180,245,60,253,50,44,
85,248,226,155,107,116,146,161,194,29,34,51,140,188,63,119,106,182,219,130,134,17,183,74,51,165,234,63,175,171,15,21,
5,164,146,35,232,213,228,14,64,167,242,135,77,203,41,45,131,166,59,22,177,5,143,18,16,81,239,233,32,62,116,248,
35,144,202,91,29,199,178,22,84,37,107,36,169,77,145,246,44,52,189,178,228,120,223,142,84,247,194,182,137,208,26,26,
156,64,182,239,142,171,139,177,41,181,115,36,172,132,161,32,195,208,163,171,114,150,174,30,116,162,144,45,215,229,201,232,
243,196,140,86,15,60,218,146,136,101,122,124,166,47,126,113,24,251,23,150,137,101,136,183,234,254,152,27,144,187,221,141,
222,249,157,251,235,126,170,101,165,62,127,34,116,42,85,49,86,120,133,250,166,30,213,95,39,135,143,149,136,58,213,222,
53,107,147,92,40,51,133,55,241,104,243,186,42,137,138,86,3,70,184,115,242,127,166,133,45,67,176,105,117,43,45,44,
132,87,166,16,239,31,208,115,252,41,14,98,41,59,156,155,178,246,103,106,245,19,130,143,123,180,145,186,243,73,131,66,
95,244,1,197,242,152,162,115,154,33,54,169,112,28,36,19,119,113,66,118,47,63,203,16,1,170,131,211,140,35,237,215,
212,13,211,83,251,14,254,170,64,74,50,4,56,54,244,6,165,232,99,20,93,201,158,213,208,220,62,5,198,67,177,72,
206,226,124,89,180,123,198,10,5,148,142,134,183,148,221,218,129,27,220,111,161,26,248,38,131,28,25,180,242,124,202,40,
49,145,233,229,164,16,155,240,163,99,31,97,47,28,253,114,125,245,99,31,206,212,193,236,140,60,103,57,59,99,188,207,
220,242,60,167,1,74,242,19,216,133,224,3,5,190,213,1,202,23,134,8,65,110,151,24,78,167,216,68,134,45,75,130,
188,157,167,74,209,73,189,158,33,209,14,214,231,248,221,162,43,133,81,157,69,156,236,3,181,66,201,229,144,187,202,69,
59,243,82,130,171,225,147,67,98,147,59,31,117,106,61,23,10,176,231,98,22,218,184,212,58,120,10,103,18,197,12,157,
12,156,161,251,155,16,231,197,36,139,102,128,43,251,39,226,135,1,69,125,97,106,144,246,237,45,128,96,246,249,177,218,
233,65,150,220,249,132,180,115,105,57,160,248,115,120,94,81,100,210,187,83,56,166,225,232,225,35,100,123,72,11,219,178,
126,99,85,52,227,7,141,98,218,44,61,154,26,206,145,95,94,188,106,1,220,73,176,251,16,120,204,64,161,65,118,247,
117,107,197,1,83,92,220,157,10,203,127,200,4,233,169,186,41,99,27,225,179,185,137,68,205,189,159,250,69,99,84,41,
244,59,98,217,32,40,172,149,64,173,71,121,23,124,169,51,241,202,186,15,41,50,215,93,72,204,204,171,142,237,73,192,
214,190,212,169,89,127,134,116,90,255,191,86,242,104,92,112,140,238,73,20,48,31,168,17,49,255,111,236,46,131,115,140,
47,106,92,25,252,38,210,171,126,255,197,83,253,49,200,183,93,194,217,143,93,88,131,85,94,127,183,168,124,62,186,37,
245,50,208,243,116,46,164,235,53,95,229,210,27,206,40,111,178,63,196,48,18,58,205,179,129,91,207,99,209,128,121,133,
207,167,122,94,75,68,128,31,98,50,195,188,5,225,215,102,195,81,25,54,94,85,160,167,250,254,243,43,71,217,141,64,
52,166,159,195,181,106,200,81,185,254,240,246,152,79,177,80,193,143,135,52,99,133,250,211,51,159,86,154,191,209,110,210,
216,185,212,0,94,147,156,200,0,71,236,128,47,134,10,7,79,232,9,129,53,184,195,250,192,88,39,97,187,39,205,200,
98,98,76,225,66,166,244,156,120,151,184,28,213,56,128,189,125,189,207,204,233,231,152,195,86,189,230,99,10,71,224,44,
221,172,3,64,228,33,191,116,172,108,224,252,204,88,24,120,20,152,4,80,93,234,238,200,235,67,12,30,128,55,15,203,
12,223,2,82,122,82,149,186,230,84,143,37,96,5,211,253,207,150,131,230,24,167,186,105,32,42,243,46,184,198,71,253,
131,124,36,32,223,80,233,65,84,250,87,29,51,220,76,126,210,205,22,116,139,210,145,82,233,248,173,228,63,19,224,29,
71,129,28,81,46,71,182,166,35,119,217,221,15,24,88,229,152,161,99,229,249,216,227,72,118,234,167,234,9,15,87,143,
255,68,94,47,156,103,142,218,19,229,81,101,204,210,44,115,63,214,53,59,131,1,178,209,88,94,166,126,127,7,248,79,
207,75,3,10,228,129,222,130,247,250,39,175,175,4,251,145,97,15,66,134,46,17,139,99,181,249,241,154,219,197,121,246,
57,147,210,39,122,213,173,188,34,120,174,129,82,55,24,116,8,56,199,177,216,74,217,181,21,11,13,145,147,34,143,72,
5,131,28,111,199,206,135,34,219,77,80,117,56,235,178,154,198,163,227,74,121,194,169,235,81,97,164,146,6,166,95,65,
184,140,156,157,23,51,212,51,211,188,166,27,196,199,219,40,243,215,129,194,238,159,132,0,8,108,144,34,181,185,18,243,
239,77,34,115,234,199,165,0,10,135,52,107,34,104,215,239,107,225,234,15,229,57,207,64,102,212,0,131,21,161,230,117,
227,204,242,41,47,132,129,208,127,9,193,227,90,73,96,83,28,128,111,244,58,229,161,196,223,75,177,156,177,91,56,104,
35,96,139,177,137,94,202,181,215,158,221,3,158,114,70,66,44,56,238,29,44,246,252,209,70,131,106,194,162,7,108,169,
27,227,180,146,219,25,158,133,24,36,5,115,139,9,199,147,226,27,98,119,82,160,197,0,0,0,0,0,0,240,63,0,
0,0,0,0,0,36,64,0,0,0,0,0,0,89,64,0,0,0,0,0,64,143,64,0,0,0,0,0,136,195,64,0,
0,0,0,0,106,248,64,0,0,0,0,128,132,46,65,0,0,0,0,208,18,99,65,0,0,0,0,132,215,151,65,0,
0,0,0,101,205,205,65,0,0,0,32,95,160,2,66,0,0,0,232,118,72,55,66,0,0,0,162,148,26,109,66,0,
0,64,229,156,48,162,66,0,0,144,30,196,188,214,66,0,0,52,38,245,107,12,67,0,128,224,55,121,195,65,67,0,
160,216,133,87,52,118,67,0,200,78,103,109,193,171,67,0,61,145,96,228,88,225,67,64,140,181,120,29,175,21,68,80,
239,226,214,228,26,75,68,146,213,77,6,207,240,128,68,115,116,111,114,101,114,111,117,116,101,108,105,109,105,116,115,116,
111,114,101,115,114,111,117,116,101,115,108,105,109,105,116,115,117,110,107,110,111,119,110,114,101,112,101,97,116,101,100,105,
100,115,105,122,101,116,121,112,101,99,104,97,110,110,101,108,115,116,97,114,116,97,112,105,100,115,101,114,118,105,99,101,
115,117,98,116,121,112,101,98,108,111,99,107,115,115,116,101,112,115,119,105,110,100,111,119,97,114,114,105,118,97,108,115,
98,101,102,111,114,101,100,117,114,105,110,103,8,9,10,11,12,99,105,114,99,117,108,97,114,98,111,117,110,100,101,100,
13,14,15,0,11,16,0,0,24,0,0,0,0,0,0,32,0,0,0,0,0,0,0,0,24,0,0,0,0,0,0,208,
47,0,0,0,0,0,0,0,3,0,0,0,0,0,0,48,46,52,46,48,0,0,0,5,0,0,0,0,0,0,0,5,
0,0,0,0,0,0,0,5,0,0,0,0,0,0,0,6,0,0,0,0,0,0,0,6,0,0,0,0,0,0,0,6,
0,0,0,0,0,0,0,7,0,0,0,0,0,0,0,8,0,0,0,0,0,0,0,2,0,0,0,0,0,0,0,4,
0,0,0,0,0,0,0,4,0,0,0,0,0,0,0,7,0,0,0,0,0,0,0,5,0,0,0,0,0,0,0,4,
0,0,0,0,0,0,0,7,0,0,0,0,0,0,0,7,0,0,0,0,0,0,0,6,0,0,0,0,0,0,0,5,
0,0,0,0,0,0,0,6,0,0,0,0,0,0,0,8,0,0,0,0,0,0,0,40,43,64,0,0,0,0,0,45,
43,64,0,0,0,0,0,50,43,64,0,0,0,0,0,55,43,64,0,0,0,0,0,61,43,64,0,0,0,0,0,67,
43,64,0,0,0,0,0,73,43,64,0,0,0,0,0,80,43,64,0,0,0,0,0,88,43,64,0,0,0,0,0,90,
43,64,0,0,0,0,0,94,43,64,0,0,0,0,0,98,43,64,0,0,0,0,0,105,43,64,0,0,0,0,0,110,
43,64,0,0,0,0,0,114,43,64,0,0,0,0,0,121,43,64,0,0,0,0,0,128,43,64,0,0,0,0,0,134,
43,64,0,0,0,0,0,139,43,64,0,0,0,0,0,145,43,64,0,0,0,0,0,1,1,1,1,1,0,0,0,1,
0,1,1,0,0,0,0,1,1,0,1,1,1,0,0,1,1,1,1,0,1,2,3,4,0,0,0,5,0,6,7,0,
0,0,0,8,9,0,10,11,12,0,0,13,14,15,16,0,0,0,0,1,0,0,0,2,0,0,0,6,0,0,0,3,
0,0,0,5,0,0,0,7,0,0,0,4,0,0,0,0,0,0,0,12,0,0,0,13,0,0,0,14,0,0,0,0,
0,0,0,17,0,0,0,18,0,0,0,19,0,0,0,20,0,0,0,21,0,0,0,26,0,0,0,9,0,0,0,1,
0,0,0,2,0,0,0,6,0,0,0,3,0,0,0,5,0,0,0,7,0,0,0,4,
};
static const struct {
    u32 at, count;
    const u8 *octets;
} rud_data[] = {
    {4194304u, 5648u, rud_data_0},
    {4199967u, 1u, rud_data_1},
    {4199983u, 1u, rud_data_2},
    {4199999u, 1u, rud_data_3},
    {4200015u, 1u, rud_data_4},
    {4200030u, 2u, rud_data_5},
    {4200046u, 2u, rud_data_6},
    {4200062u, 2u, rud_data_7},
    {4200077u, 3u, rud_data_8},
    {4200093u, 3u, rud_data_9},
    {4200109u, 3u, rud_data_10},
    {4200125u, 3u, rud_data_11},
    {4200140u, 4u, rud_data_12},
    {4200156u, 4u, rud_data_13},
    {4200172u, 4u, rud_data_14},
    {4200187u, 5u, rud_data_15},
    {4200203u, 5u, rud_data_16},
    {4200219u, 5u, rud_data_17},
    {4200235u, 5u, rud_data_18},
    {4200250u, 6u, rud_data_19},
    {4200266u, 6u, rud_data_20},
    {4200282u, 6u, rud_data_21},
    {4200297u, 7u, rud_data_22},
    {4200313u, 7u, rud_data_23},
    {4200329u, 7u, rud_data_24},
    {4200345u, 5688u, rud_data_25},
};

/* ---- What a call takes in and out. */
static void rud_start(rud *it, u8 *data, u32 size) {
    u32 k;
    memset(it, 0, sizeof *it);
    it->data = data;
    it->size = size;
    it->cut = RUD_HEAP + 8u;
    memset(data + (RUD_STACK - RUD_FIRST), 0, RUD_BOUNCE - RUD_STACK);
    for (k = 0; k < sizeof rud_data / sizeof rud_data[0]; k++) {
        memcpy(data + (rud_data[k].at - RUD_FIRST), rud_data[k].octets, rud_data[k].count);
    }
    RUD_START_GLOBALS(it)
}

/* What a call has of an array. */
struct rud_call {
    u32 bounce, count, handle;
    bool fails;
    u32 blocks[8];
};

#ifdef RUDLAYOG_ARRAY
typedef char rud_array_is_too_small[(RUDLAYOG_ARRAY) >= RUD_HEAP - RUD_FIRST + 64u ? 1 : -1];
#define RUD_BEGIN(handle) rud_begin(&call, handle)

static void rud_begin(struct rud_call *call, const struct rudlayog_memory *memory) {
    call->bounce = RUD_BOUNCE;
    call->count = 0;
    call->handle = RUD_HANDLE;
    call->fails = false;
    if (rud_one.size == 0) rud_start(&rud_one, rud_array.octets, RUD_SIZE);
    if (memory == NULL) return;
    if (memory->is_open) {
        call->handle = (u32)(uintptr_t)memory->at;
    } else {
        call->handle = rud_take(16);
        call->fails = call->handle == 0;
        if (!call->fails) FILL(call->handle, 0, 16);
    }
}
#else
#define RUD_BEGIN(handle) rud *m = rud_begin(&call, handle)

static rud *rud_new(void) {
    const u32 size = (RUD_HEAP - RUD_FIRST + 0x4FFFFu) & ~(u32)0xFFFF;
    rud *it = (rud *)RUDLAYOG_MALLOC(sizeof *it);
    u8 *data = it != NULL ? (u8 *)RUDLAYOG_MALLOC((size_t)size + RUD_MARGIN) : NULL;
    if (data != NULL) {
        rud_start(it, data, size);
    } else if (it != NULL) {
        RUDLAYOG_FREE(it);
        it = NULL;
    }
    return it;
}

static rud *rud_begin(struct rud_call *call, const struct rudlayog_memory *memory) {
    rud *it = memory != NULL && memory->is_open ? (rud *)memory->at : rud_new();
    call->bounce = RUD_BOUNCE;
    call->count = 0;
    call->handle = RUD_HANDLE;
    call->fails = it == NULL;
    return it;
}
#endif

/* Room for what a call takes or gives. */
static u32 rud_room(RUD_IT struct rud_call *call, u64 size) {
    u32 at = call->bounce;
    if (call->fails) return 0;
    if (size <= RUD_HEAP - at) {
        call->bounce += RUD_ROUND(size);
        return at;
    }
    at = rud_take(RUD_AS size);
    if (at == 0) {
        call->fails = true;
    } else {
        call->blocks[call->count++] = at;
    }
    return at;
}

static u32 rud_rooms(RUD_IT struct rud_call *call, u64 count, u32 size) {
    if (count > 0xFFFFFFFFu / size) call->fails = true;
    return rud_room(RUD_AS call, count * size);
}

static u32 rud_text(RUD_IT struct rud_call *call, const void *octets, size_t count) {
    const u32 at = rud_room(RUD_AS call, count);
    if (!call->fails && count != 0) {
        RUD_HERE
        memcpy(rud_range(RUD_WHERE at, (u32)count), octets, count);
    }
    return at;
}

static void rud_out(RUD_IT void *to, u32 at, u64 count) {
    if (count != 0) {
        RUD_HERE
        memcpy(to, rud_range(RUD_WHERE at, (u32)count), (size_t)count);
    }
}

/* Gives the room back, and the whole array where no memory is open in it. */
static void rud_end(RUD_IT struct rud_call *call, struct rudlayog_memory *memory) {
    bool is_open = false;
#ifndef RUDLAYOG_ARRAY
    if (m == NULL) return;
#endif
    while (call->count != 0) rud_give_back(RUD_AS call->blocks[--call->count]);
    if (memory != NULL && call->handle != 0) {
        RUD_HERE
        is_open = GET8(call->handle, 8) != 0;
    }
#ifdef RUDLAYOG_ARRAY
    if (memory != NULL) {
        memory->at = is_open ? (void *)(uintptr_t)call->handle : NULL;
        memory->is_open = is_open;
        if (!is_open && call->handle != 0) rud_give_back(call->handle);
    }
#else
    if (memory != NULL) {
        memory->at = is_open ? m : NULL;
        memory->is_open = is_open;
    }
    if (!is_open) {
        RUDLAYOG_FREE(m->data);
        RUDLAYOG_FREE(m);
    }
#endif
}

/* ---- The calls of rudlayog.h. */
static void take_rudlayog_refused(RUD_IT u32 at, struct rudlayog_refused *to) {
    RUD_HERE
    to->number = (uint32_t)GET32(at, 0);
    to->place = (uint32_t)GET32(at, 4);
    to->row = (uint32_t)GET32(at, 8);
    to->column = (uint32_t)GET32(at, 12);
    to->line = (uint64_t)GET64(at, 16);
    to->name = (uint32_t)GET32(at, 24);
}

static void take_rudlayog_answer(RUD_IT u32 at, struct rudlayog_answer *to) {
    RUD_HERE
    to->status = (uint32_t)GET32(at, 0);
    take_rudlayog_refused(RUD_AS at + 8u, &to->refused);
    to->length = (size_t)GET64(at, 40);
}

static void take_rudlayog_fate(RUD_IT u32 at, struct rudlayog_fate *to) {
    RUD_HERE
    to->kind = (uint32_t)GET32(at, 0);
    to->time = (uint64_t)GET64(at, 8);
}

static void take_rudlayog_state(RUD_IT u32 at, struct rudlayog_state *to) {
    RUD_HERE
    to->kind = (uint32_t)GET32(at, 0);
    to->size = (uint32_t)GET32(at, 4);
    to->held = (uint32_t)GET32(at, 8);
    to->storage = (uint32_t)GET32(at, 12);
    to->retrieval = (uint32_t)GET32(at, 16);
    to->offered = (uint64_t)GET64(at, 24);
    to->lost = (uint64_t)GET64(at, 32);
    to->deleted = (uint64_t)GET64(at, 40);
    to->oldest = (uint64_t)GET64(at, 48);
    to->newest = (uint64_t)GET64(at, 56);
    to->from = (uint64_t)GET64(at, 64);
    to->to = (uint64_t)GET64(at, 72);
    to->after = (uint64_t)GET64(at, 80);
}

static void take_rudlayog_store(RUD_IT u32 at, struct rudlayog_store *to) {
    RUD_HERE
    for (u32 k = 0; k < 8; k++) to->id[k] = (uint8_t)GET8(at + k * 1u, 0);
    to->id_length = (uint32_t)GET32(at, 8);
    to->channel = (uint32_t)GET32(at, 12);
    take_rudlayog_state(RUD_AS at + 16u, &to->state);
}

static void take_rudlayog_tally(RUD_IT u32 at, struct rudlayog_tally *to) {
    RUD_HERE
    to->kept = (uint32_t)GET32(at, 0);
    to->lost = (uint32_t)GET32(at, 4);
    to->refused = (uint32_t)GET32(at, 8);
}

static void take_rudlayog_report(RUD_IT u32 at, struct rudlayog_report *to) {
    RUD_HERE
    to->moment = (uint64_t)GET64(at, 0);
    for (u32 k = 0; k < 8; k++) to->id[k] = (uint8_t)GET8(at + k * 1u, 8);
    to->apid = (uint16_t)GET16(at, 16);
    to->count = (uint16_t)GET16(at, 18);
    to->counter = (uint16_t)GET16(at, 20);
    to->destination = (uint16_t)GET16(at, 22);
    to->reference = (uint8_t)GET8(at, 24);
    to->subtype = (uint8_t)GET8(at, 25);
}

static void take_rudlayog_entry(RUD_IT u32 at, struct rudlayog_entry *to) {
    RUD_HERE
    for (u32 k = 0; k < 8; k++) to->id[k] = (uint8_t)GET8(at + k * 1u, 0);
    to->oldest = (uint64_t)GET64(at, 8);
    to->newest = (uint64_t)GET64(at, 16);
    to->held = (uint32_t)GET32(at, 24);
    to->size = (uint32_t)GET32(at, 28);
    to->apid = (uint16_t)GET16(at, 32);
    to->service = (uint8_t)GET8(at, 34);
    to->subtype = (uint8_t)GET8(at, 35);
    to->storage = (uint8_t)GET8(at, 36);
    to->retrieval = (uint8_t)GET8(at, 37);
    to->type = (uint8_t)GET8(at, 38);
    to->channel = (uint8_t)GET8(at, 39);
}

static void put_rudlayog_request(RUD_IT u32 at, const struct rudlayog_request *from) {
    RUD_HERE
    FILL(at, 0, 8);
    PUT16(at, 0, (u16)from->apid);
    PUT16(at, 2, (u16)from->count);
    PUT16(at, 4, (u16)from->source);
    PUT8(at, 6, (u8)from->acknowledgement);
    PUT8(at, 7, (u8)from->subtype);
}

static void put_rudlayog_instruction(RUD_IT u32 at, const struct rudlayog_instruction *from) {
    RUD_HERE
    FILL(at, 0, 40);
    for (u32 k = 0; k < 8; k++) PUT8(at + k * 1u, 0, (u8)from->id[k]);
    PUT64(at, 8, (u64)from->from);
    PUT64(at, 16, (u64)from->to);
    PUT32(at, 24, (u32)from->size);
    PUT16(at, 28, (u16)from->apid);
    PUT8(at, 30, (u8)from->service);
    PUT8(at, 31, (u8)from->subtype);
    PUT8(at, 32, (u8)from->type);
    PUT8(at, 33, (u8)from->channel);
}

static void put_refused(RUD_IT u32 at, u32 refused) {
    RUD_HERE
    FILL(at, 0, 48);
    PUT32(at, 0, refused);
}

static void rud_take32(RUD_IT u32 at, uint32_t *to) {
    RUD_HERE
    *to = GET32(at, 0);
}

static void rud_take64(RUD_IT u32 at, uint64_t *to) {
    RUD_HERE
    *to = GET64(at, 0);
}

void rudlayog_version_number(uint32_t *number) {
    struct rud_call call;
    RUD_BEGIN(NULL);
    {
        const u32 number_at = rud_room(RUD_AS &call, 4);
        if (!call.fails) {
            in_rudlayog_version_number(RUD_AS number_at);
            rud_take32(RUD_AS number_at, number);
        } else {
            *number = 0;
        }
    }
    rud_end(RUD_AS &call, NULL);
}

void rudlayog_version(uint8_t *out, size_t room, struct rudlayog_answer *answer) {
    struct rud_call call;
    RUD_BEGIN(NULL);
    {
        const u32 out_at = rud_rooms(RUD_AS &call, room, 1);
        const u32 answer_at = rud_room(RUD_AS &call, 48);
        if (!call.fails) {
            in_rudlayog_version(RUD_AS out_at, room, answer_at);
            take_rudlayog_answer(RUD_AS answer_at, answer);
            if (answer->status == RUDLAYOG_WRITTEN)
                rud_out(RUD_AS out, out_at, answer->length < room ? answer->length : room);
        } else {
            memset(answer, 0, sizeof *answer);
            answer->status = RUDLAYOG_REFUSED;
        }
    }
    rud_end(RUD_AS &call, NULL);
}

void rudlayog_request_write(const struct rudlayog_request *request, const struct rudlayog_instruction *instructions, size_t count, uint8_t *out, size_t room, struct rudlayog_answer *answer) {
    struct rud_call call;
    RUD_BEGIN(NULL);
    {
        const u32 request_at = rud_room(RUD_AS &call, 8);
        if (!call.fails) put_rudlayog_request(RUD_AS request_at, request);
        const u32 instructions_at = rud_rooms(RUD_AS &call, count, 40);
        for (size_t k = 0; !call.fails && k < count; k++)
            put_rudlayog_instruction(RUD_AS instructions_at + (u32)k * 40u, &instructions[k]);
        const u32 out_at = rud_rooms(RUD_AS &call, room, 1);
        const u32 answer_at = rud_room(RUD_AS &call, 48);
        if (!call.fails) {
            in_rudlayog_request_write(RUD_AS request_at, instructions_at, count, out_at, room, answer_at);
            take_rudlayog_answer(RUD_AS answer_at, answer);
            if (answer->status == RUDLAYOG_WRITTEN)
                rud_out(RUD_AS out, out_at, answer->length < room ? answer->length : room);
        } else {
            memset(answer, 0, sizeof *answer);
            answer->status = RUDLAYOG_REFUSED;
        }
    }
    rud_end(RUD_AS &call, NULL);
}

void rudlayog_report_read(const uint8_t *packet, size_t packet_length, struct rudlayog_report *report, struct rudlayog_entry *entries, size_t entries_room, struct rudlayog_answer *answer) {
    struct rud_call call;
    RUD_BEGIN(NULL);
    {
        const u32 packet_at = rud_text(RUD_AS &call, packet, packet_length);
        const u32 report_at = rud_room(RUD_AS &call, 32);
        const size_t most = entries_room < (size_t)(packet_length / 4 + 1) ? entries_room : (size_t)(packet_length / 4 + 1);
        const u32 entries_at = rud_rooms(RUD_AS &call, most, 40);
        const u32 answer_at = rud_room(RUD_AS &call, 48);
        if (!call.fails) {
            in_rudlayog_report_read(RUD_AS packet_at, packet_length, report_at, entries_at, most, answer_at);
            take_rudlayog_answer(RUD_AS answer_at, answer);
            take_rudlayog_report(RUD_AS report_at, report);
            for (u32 k = 0; answer->status == RUDLAYOG_WRITTEN && k < answer->length && k < most; k++)
                take_rudlayog_entry(RUD_AS entries_at + k * 40u, &entries[k]);
        } else {
            memset(report, 0, sizeof *report);
            memset(answer, 0, sizeof *answer);
            answer->status = RUDLAYOG_REFUSED;
        }
    }
    rud_end(RUD_AS &call, NULL);
}

void rudlayog_memory_open(struct rudlayog_memory *memory, const uint8_t *setup, size_t setup_length, struct rudlayog_answer *answer) {
    struct rud_call call;
    RUD_BEGIN(memory);
    {
        const u32 setup_at = rud_text(RUD_AS &call, setup, setup_length);
        const u32 answer_at = rud_room(RUD_AS &call, 48);
        if (!call.fails) {
            in_rudlayog_memory_open(RUD_AS call.handle, setup_at, setup_length, answer_at);
            take_rudlayog_answer(RUD_AS answer_at, answer);
        } else {
            memset(answer, 0, sizeof *answer);
            answer->status = RUDLAYOG_REFUSED;
        }
    }
    rud_end(RUD_AS &call, memory);
}

void rudlayog_memory_offer(struct rudlayog_memory *memory, const uint8_t *id, size_t id_length, uint64_t now, const uint8_t *packet, size_t packet_length, struct rudlayog_fate *fate, struct rudlayog_answer *answer) {
    struct rud_call call;
    RUD_BEGIN(memory);
    {
        const u32 id_at = rud_text(RUD_AS &call, id, id_length);
        const u32 packet_at = rud_text(RUD_AS &call, packet, packet_length);
        const u32 fate_at = rud_room(RUD_AS &call, 16);
        const u32 answer_at = rud_room(RUD_AS &call, 48);
        if (!call.fails) {
            in_rudlayog_memory_offer(RUD_AS call.handle, id_at, id_length, now, packet_at, packet_length, fate_at, answer_at);
            take_rudlayog_answer(RUD_AS answer_at, answer);
            take_rudlayog_fate(RUD_AS fate_at, fate);
        } else {
            memset(fate, 0, sizeof *fate);
            memset(answer, 0, sizeof *answer);
            answer->status = memory->is_open ? RUDLAYOG_REFUSED : RUDLAYOG_CLOSED;
        }
    }
    rud_end(RUD_AS &call, memory);
}

void rudlayog_memory_record(struct rudlayog_memory *memory, uint64_t now, const uint8_t *packet, size_t packet_length, struct rudlayog_tally *tally, struct rudlayog_answer *answer) {
    struct rud_call call;
    RUD_BEGIN(memory);
    {
        const u32 packet_at = rud_text(RUD_AS &call, packet, packet_length);
        const u32 tally_at = rud_room(RUD_AS &call, 12);
        const u32 answer_at = rud_room(RUD_AS &call, 48);
        if (!call.fails) {
            in_rudlayog_memory_record(RUD_AS call.handle, now, packet_at, packet_length, tally_at, answer_at);
            take_rudlayog_answer(RUD_AS answer_at, answer);
            take_rudlayog_tally(RUD_AS tally_at, tally);
        } else {
            memset(tally, 0, sizeof *tally);
            memset(answer, 0, sizeof *answer);
            answer->status = memory->is_open ? RUDLAYOG_REFUSED : RUDLAYOG_CLOSED;
        }
    }
    rud_end(RUD_AS &call, memory);
}

void rudlayog_memory_apply(struct rudlayog_memory *memory, uint64_t now, const uint8_t *request, size_t request_length, uint8_t *each, size_t each_room, struct rudlayog_answer *answer) {
    struct rud_call call;
    RUD_BEGIN(memory);
    {
        const u32 request_at = rud_text(RUD_AS &call, request, request_length);
        const size_t most = each_room < (size_t)(RUDLAYOG_INSTRUCTIONS) ? each_room : (size_t)(RUDLAYOG_INSTRUCTIONS);
        const u32 each_at = rud_rooms(RUD_AS &call, most, 1);
        const u32 answer_at = rud_room(RUD_AS &call, 48);
        if (!call.fails) {
            in_rudlayog_memory_apply(RUD_AS call.handle, now, request_at, request_length, each_at, most, answer_at);
            take_rudlayog_answer(RUD_AS answer_at, answer);
            if (answer->status == RUDLAYOG_WRITTEN)
                rud_out(RUD_AS each, each_at, answer->length < most ? answer->length : most);
        } else {
            memset(answer, 0, sizeof *answer);
            answer->status = memory->is_open ? RUDLAYOG_REFUSED : RUDLAYOG_CLOSED;
        }
    }
    rud_end(RUD_AS &call, memory);
}

void rudlayog_memory_report(struct rudlayog_memory *memory, uint8_t *out, size_t room, struct rudlayog_answer *answer) {
    struct rud_call call;
    RUD_BEGIN(memory);
    {
        size_t most = room < (size_t)(8192u) ? room : (size_t)(8192u);
        u32 out_at = rud_rooms(RUD_AS &call, most, 1);
        u32 answer_at = rud_room(RUD_AS &call, 48);
        if (!call.fails) {
            in_rudlayog_memory_report(RUD_AS call.handle, out_at, most, answer_at);
            take_rudlayog_answer(RUD_AS answer_at, answer);
            if (answer->status == RUDLAYOG_TOO_SMALL && most < room && answer->length <= room) {
                most = answer->length;
                out_at = rud_room(RUD_AS &call, most);
                if (!call.fails) {
                    in_rudlayog_memory_report(RUD_AS call.handle, out_at, most, answer_at);
                } else {
                    put_refused(RUD_AS answer_at, RUDLAYOG_REFUSED);
                }
            }
            take_rudlayog_answer(RUD_AS answer_at, answer);
            if (answer->status == RUDLAYOG_WRITTEN)
                rud_out(RUD_AS out, out_at, answer->length < most ? answer->length : most);
        } else {
            memset(answer, 0, sizeof *answer);
            answer->status = memory->is_open ? RUDLAYOG_REFUSED : RUDLAYOG_CLOSED;
        }
    }
    rud_end(RUD_AS &call, memory);
}

void rudlayog_memory_next(struct rudlayog_memory *memory, const uint8_t *id, size_t id_length, uint8_t *out, size_t room, uint64_t *time, struct rudlayog_answer *answer) {
    struct rud_call call;
    RUD_BEGIN(memory);
    {
        const u32 id_at = rud_text(RUD_AS &call, id, id_length);
        const size_t most = room < (size_t)(RUDLAYOG_BLOCK) ? room : (size_t)(RUDLAYOG_BLOCK);
        const u32 out_at = rud_rooms(RUD_AS &call, most, 1);
        const u32 time_at = rud_room(RUD_AS &call, 8);
        const u32 answer_at = rud_room(RUD_AS &call, 48);
        if (!call.fails) {
            in_rudlayog_memory_next(RUD_AS call.handle, id_at, id_length, out_at, most, time_at, answer_at);
            take_rudlayog_answer(RUD_AS answer_at, answer);
            if (answer->status == RUDLAYOG_WRITTEN)
                rud_out(RUD_AS out, out_at, answer->length < most ? answer->length : most);
            rud_take64(RUD_AS time_at, time);
        } else {
            *time = 0;
            memset(answer, 0, sizeof *answer);
            answer->status = memory->is_open ? RUDLAYOG_REFUSED : RUDLAYOG_CLOSED;
        }
    }
    rud_end(RUD_AS &call, memory);
}

void rudlayog_memory_state(const struct rudlayog_memory *memory, const uint8_t *id, size_t id_length, struct rudlayog_state *state, struct rudlayog_answer *answer) {
    struct rud_call call;
    RUD_BEGIN(memory);
    {
        const u32 id_at = rud_text(RUD_AS &call, id, id_length);
        const u32 state_at = rud_room(RUD_AS &call, 88);
        const u32 answer_at = rud_room(RUD_AS &call, 48);
        if (!call.fails) {
            in_rudlayog_memory_state(RUD_AS call.handle, id_at, id_length, state_at, answer_at);
            take_rudlayog_answer(RUD_AS answer_at, answer);
            take_rudlayog_state(RUD_AS state_at, state);
        } else {
            memset(state, 0, sizeof *state);
            state->kind = RUDLAYOG_NO_STORE;
            memset(answer, 0, sizeof *answer);
            answer->status = memory->is_open ? RUDLAYOG_REFUSED : RUDLAYOG_CLOSED;
        }
    }
    rud_end(RUD_AS &call, (struct rudlayog_memory *)memory);
}

void rudlayog_memory_store(const struct rudlayog_memory *memory, uint64_t place, struct rudlayog_store *store, struct rudlayog_answer *answer) {
    struct rud_call call;
    RUD_BEGIN(memory);
    {
        const u32 store_at = rud_room(RUD_AS &call, 104);
        const u32 answer_at = rud_room(RUD_AS &call, 48);
        if (!call.fails) {
            in_rudlayog_memory_store(RUD_AS call.handle, place, store_at, answer_at);
            take_rudlayog_answer(RUD_AS answer_at, answer);
            take_rudlayog_store(RUD_AS store_at, store);
        } else {
            memset(store, 0, sizeof *store);
            memset(answer, 0, sizeof *answer);
            answer->status = memory->is_open ? RUDLAYOG_REFUSED : RUDLAYOG_CLOSED;
        }
    }
    rud_end(RUD_AS &call, (struct rudlayog_memory *)memory);
}

void rudlayog_memory_waiting(const struct rudlayog_memory *memory, uint64_t *reports, struct rudlayog_answer *answer) {
    struct rud_call call;
    RUD_BEGIN(memory);
    {
        const u32 reports_at = rud_room(RUD_AS &call, 8);
        const u32 answer_at = rud_room(RUD_AS &call, 48);
        if (!call.fails) {
            in_rudlayog_memory_waiting(RUD_AS call.handle, reports_at, answer_at);
            take_rudlayog_answer(RUD_AS answer_at, answer);
            rud_take64(RUD_AS reports_at, reports);
        } else {
            *reports = 0;
            memset(answer, 0, sizeof *answer);
            answer->status = memory->is_open ? RUDLAYOG_REFUSED : RUDLAYOG_CLOSED;
        }
    }
    rud_end(RUD_AS &call, (struct rudlayog_memory *)memory);
}

void rudlayog_memory_refused(const struct rudlayog_memory *memory, uint64_t *packets, struct rudlayog_answer *answer) {
    struct rud_call call;
    RUD_BEGIN(memory);
    {
        const u32 packets_at = rud_room(RUD_AS &call, 8);
        const u32 answer_at = rud_room(RUD_AS &call, 48);
        if (!call.fails) {
            in_rudlayog_memory_refused(RUD_AS call.handle, packets_at, answer_at);
            take_rudlayog_answer(RUD_AS answer_at, answer);
            rud_take64(RUD_AS packets_at, packets);
        } else {
            *packets = 0;
            memset(answer, 0, sizeof *answer);
            answer->status = memory->is_open ? RUDLAYOG_REFUSED : RUDLAYOG_CLOSED;
        }
    }
    rud_end(RUD_AS &call, (struct rudlayog_memory *)memory);
}

void rudlayog_memory_bound(struct rudlayog_memory *memory, uint64_t reports, struct rudlayog_answer *answer) {
    struct rud_call call;
    RUD_BEGIN(memory);
    {
        const u32 answer_at = rud_room(RUD_AS &call, 48);
        if (!call.fails) {
            in_rudlayog_memory_bound(RUD_AS call.handle, reports, answer_at);
            take_rudlayog_answer(RUD_AS answer_at, answer);
        } else {
            memset(answer, 0, sizeof *answer);
            answer->status = memory->is_open ? RUDLAYOG_REFUSED : RUDLAYOG_CLOSED;
        }
    }
    rud_end(RUD_AS &call, memory);
}

void rudlayog_memory_close(struct rudlayog_memory *memory) {
    struct rud_call call;
    RUD_BEGIN(memory);
    {
        if (!call.fails) {
            in_rudlayog_memory_close(RUD_AS call.handle);
        }
    }
    rud_end(RUD_AS &call, memory);
}
