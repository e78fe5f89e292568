# The tests of wallthyme.hpp: a part of c/Makefile.
#
# One program has the test with exceptions and, compiled again, without exceptions and RTTI.
PLUS_CXX = $(CXX11) -O0 -Wshadow -Wold-style-cast -pthread -Itests/vulkan
PLUS_HEADERS = wallthyme.hpp $(VULKAN_HEADERS)
NO_EXCEPTIONS = -fno-exceptions -fno-rtti
# Where vulkan.hpp is there. The sanitizers would find nothing there that they do not find in the other program.
VULKAN_HPP := $(if $(SANITIZE),,$(wildcard /usr/include/vulkan/vulkan.hpp))

.PHONY: check-plus check-plus-programs check-plus-valgrind check-plus-threads

check-plus: $(if $(PLUS),check-plus-programs check-plus-valgrind check-plus-threads)
	@$(if $(PLUS),:,echo 'vulkan/plus: left out, since there is no C++ compiler ($(CXX))')

$(VULKAN_PROGRAMS)/plus_exceptions.o: tests/vulkan/plus.cc $(PLUS_HEADERS)
	@mkdir -p $(VULKAN_PROGRAMS)
	$(PLUS_CXX) -c $< -o $@

$(VULKAN_PROGRAMS)/plus_results.o: tests/vulkan/plus.cc $(PLUS_HEADERS)
	@mkdir -p $(VULKAN_PROGRAMS)
	$(PLUS_CXX) $(NO_EXCEPTIONS) $(if $(SANITIZE),-fno-sanitize=vptr) -c $< -o $@

$(VULKAN_PROGRAMS)/plus_hpp.o: tests/vulkan/plus_hpp.cc $(PLUS_HEADERS)
	@mkdir -p $(VULKAN_PROGRAMS)
	$(CXX11) -O0 -Itests/vulkan -c $< -o $@

$(VULKAN_PROGRAMS)/plus_end.o $(VULKAN_PROGRAMS)/plus_end_release.o: tests/vulkan/plus_end.cc $(PLUS_HEADERS)
	@mkdir -p $(VULKAN_PROGRAMS)
	$(PLUS_CXX) $(if $(findstring release,$@),-DNDEBUG,-UNDEBUG) -c $< -o $@

$(VULKAN_PROGRAMS)/plus: $(addprefix $(VULKAN_PROGRAMS)/,plus_exceptions.o plus_results.o)
$(VULKAN_PROGRAMS)/plus_hpp: $(VULKAN_PROGRAMS)/plus_hpp.o
$(VULKAN_PROGRAMS)/plus_end: $(VULKAN_PROGRAMS)/plus_end.o
$(VULKAN_PROGRAMS)/plus_end_release: $(VULKAN_PROGRAMS)/plus_end_release.o
$(addprefix $(VULKAN_PROGRAMS)/,plus plus_hpp plus_end plus_end_release): $(STUB) $(VULKAN_SIDE) $(BUILD)/libwallthyme.a
	$(CXX11) -pthread $(filter %.o,$^) $(filter %.a,$^) $(BY_STUB) -o $@

# Without exceptions a result that is discarded is warned of: the first two of three here.
DISCARDS = (echo '\#include "wallthyme.hpp"'; echo 'int f(wallthyme::Allocator &a) {'; echo 'a.cleanup();'; \
    echo 'a.allocate({});'; echo 'return a.cleanup(); }') \
    | $(CXX11) -O0 -DWALLTHYME_NO_EXCEPTIONS -x c++ -c -o /dev/null - 2>&1 | grep -c 'warning: '

# Blocks that are live at the end are printed in a debug build, and not in a release build.
check-plus-programs: $(addprefix $(VULKAN_PROGRAMS)/,plus plus_end plus_end_release $(if $(VULKAN_HPP),plus_hpp))
	@$(RUN) $(VULKAN_PROGRAMS)/plus
	@$(RUN) $(VULKAN_PROGRAMS)/plus_end > $(VULKAN_PROGRAMS)/plus_end.wanted 2> $(VULKAN_PROGRAMS)/plus_end.printed
	@cmp $(VULKAN_PROGRAMS)/plus_end.wanted $(VULKAN_PROGRAMS)/plus_end.printed
	@test -z "$$($(RUN) $(VULKAN_PROGRAMS)/plus_end_release 2>&1 > /dev/null)" || { \
	    echo 'FAILED: a release build prints the blocks that are live at the end' >&2; exit 1; }
	@echo 'plus_end: blocks that are live at the end are printed, and in a release build not'
	@test "$$( $(DISCARDS) )" = 2 || { echo 'FAILED: what is warned of is not what is discarded' >&2; exit 1; }
	@$(if $(VULKAN_HPP),$(RUN) $(VULKAN_PROGRAMS)/plus_hpp,$(if $(SANITIZE),:,echo \
	    'vulkan/plus_hpp: left out, since vulkan.hpp is not installed'))

# The test has an operator new of its own, which valgrind is not to replace.
check-plus-valgrind: check-plus-programs
	@if [ -n '$(SANITIZE)$(RUN)' ] || ! command -v valgrind > /dev/null; then :; \
	else $(VALGRIND) --soname-synonyms=somalloc=nouserintercepts $(VULKAN_PROGRAMS)/plus > /dev/null \
	    && echo 'vulkan/plus under valgrind'; fi

# As drawn.c of check-vulkan-threads.
$(TSAN)/plus: $(addprefix tests/vulkan/,plus.cc stub.c ordered.c) wallthyme_vulkan.c $(PLUS_HEADERS) \
    $(BUILD)/libwallthyme.a
	@mkdir -p $(TSAN)/plus.parts
	@for source in $(filter %.c,$^); do \
	    $(CC) -std=c99 $(CFLAGS) $(WARNINGS) -fsanitize=thread -pthread -I. -c $$source \
	        -o $(TSAN)/plus.parts/$$(basename $$source .c).o || exit 1; done
	$(PLUS_CXX) -fsanitize=thread -c $< -o $(TSAN)/plus.parts/exceptions.o
	$(PLUS_CXX) -fsanitize=thread $(NO_EXCEPTIONS) -c $< -o $(TSAN)/plus.parts/results.o
	$(CXX11) -fsanitize=thread -pthread $(TSAN)/plus.parts/*.o $(BUILD)/libwallthyme.a \
	    $(addprefix -Wl$(comma)--wrap=,$(ORDERED)) -o $@

check-plus-threads: check-plus-programs
	@mkdir -p $(TSAN)
	@if [ -n '$(SANITIZE)$(RUN)' ]; then :; \
	elif ! echo 'int main() { return 0; }' | $(CXX) -fsanitize=thread -x c++ - -o $(TSAN)/probe 2> /dev/null \
	    || ! $(TSAN)/probe; then \
	    echo 'vulkan/plus under the thread sanitizer: left out, since $(CXX) does not have it here'; \
	else $(MAKE) --no-print-directory $(TSAN)/plus && TSAN_OPTIONS='halt_on_error=1 exitcode=66' $(TSAN)/plus > /dev/null \
	    && echo 'vulkan/plus under the thread sanitizer'; fi
