// Included before every file (-include). Android's toolchain pulls these in by other headers.
#pragma once
#include <linux/types.h>
#include <unistd.h>
#include <climits>
#include <cstddef>
#include <cstdint>
#include <cstring>
#ifdef __cplusplus
#include <algorithm>
#include <array>
#include <atomic>
#include <condition_variable>
#include <functional>
#include <limits>
#include <map>
#include <memory>
#include <mutex>
#include <optional>
#include <set>
#include <string>
#include <thread>
#include <type_traits>
#include <variant>
#include <vector>
#endif
#ifndef SIZE_T_MAX
#define SIZE_T_MAX SIZE_MAX
#endif
#ifndef OLDER
// of Android's own kernel headers
#define FLAT_BINDER_FLAG_SCHED_POLICY_SHIFT 9
#define FLAT_BINDER_FLAG_INHERIT_RT 0x800
#endif
