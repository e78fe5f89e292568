; The library's heap over malloc, for platforms to which the kit brings none: what c/heap.c of the kit does, in LLVM's
; text. What may fail returns two words, whether it was done and the address, in two registers; no C says so on every
; platform. malloc aligns to 16 bytes, which is all that the library asks for, and returns null on failure.

declare ptr @malloc(i64)
declare ptr @realloc(ptr, i64)
declare void @free(ptr)

; The address behind a refusal, which is not null and is never read.
@nowhere = internal global i8 0

define internal { i64, i64 } @tried(ptr %got) alwaysinline {
  %done = icmp ne ptr %got, null
  %place = select i1 %done, ptr %got, ptr @nowhere
  %first = zext i1 %done to i64
  %second = ptrtoint ptr %place to i64
  %half = insertvalue { i64, i64 } undef, i64 %first, 0
  %both = insertvalue { i64, i64 } %half, i64 %second, 1
  ret { i64, i64 } %both
}

; A request of no bytes takes as many as its alignment.
define internal i64 @least(i64 %bytes, i64 %alignment) alwaysinline {
  %none = icmp eq i64 %bytes, 0
  %least = select i1 %none, i64 %alignment, i64 %bytes
  ret i64 %least
}

define { i64, i64 } @rattle_alloc(i64 %bytes, i64 %alignment) {
  %least = call i64 @least(i64 %bytes, i64 %alignment)
  %got = call ptr @malloc(i64 %least)
  %both = call { i64, i64 } @tried(ptr %got)
  ret { i64, i64 } %both
}

define { i64, i64 } @rattle_realloc(ptr %old, i64 %kept, i64 %bytes, i64 %alignment) {
  %least = call i64 @least(i64 %bytes, i64 %alignment)
  %got = call ptr @realloc(ptr %old, i64 %least)
  %both = call { i64, i64 } @tried(ptr %got)
  ret { i64, i64 } %both
}

define void @rattle_dealloc(ptr %old) {
  call void @free(ptr %old)
  ret void
}
