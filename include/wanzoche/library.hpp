/// The C library and its monitor, in a file where `wanzoche` is a namespace. For wanzoche.hpp.
///
/// In C the name `wanzoche` is a struct's, and C++ can't have both. So behind this header the struct is called `wanzoche_handle`; all calls
/// and all other names are those of wanzoche.h and wanzoche_monitor.h.
#ifndef WANZOCHE_LIBRARY_HPP
#define WANZOCHE_LIBRARY_HPP

#if __cplusplus < 201703L
#error "wanzoche.hpp needs C++17 or later: -std=c++17"
#endif
#ifdef WANZOCHE_H
#error "include wanzoche.hpp before wanzoche.h: it makes wanzoche a namespace, and the struct wanzoche_handle"
#endif

#define wanzoche wanzoche_handle
#include "../wanzoche_monitor.h"
#undef wanzoche

/// Whether calls that throw are there: they aren't under -fno-exceptions, where those with a std::error_code are all there is.
#if defined(__cpp_exceptions)
#define WANZOCHE_THROWS 1
#else
#define WANZOCHE_THROWS 0
#endif

#endif
