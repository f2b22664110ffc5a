
; What a module for 32-bit addresses calls for memory: C's functions have sizes of 32 bits, and return null if there is none.
@rattle_none = internal global [16 x i8] zeroinitializer, align 16
declare ptr @rattle_narrow_alloc(i32, i32)
declare ptr @rattle_narrow_realloc(ptr, i32, i32, i32)

define internal { i64, i64 } @rattle_made(ptr %p) {
  %none = icmp eq ptr %p, null
  %at = select i1 %none, ptr @rattle_none, ptr %p
  %word = ptrtoint ptr %at to i64
  %ok = select i1 %none, i64 0, i64 1
  %a = insertvalue { i64, i64 } poison, i64 %ok, 0
  %b = insertvalue { i64, i64 } %a, i64 %word, 1
  ret { i64, i64 } %b
}

define internal { i64, i64 } @rattle_alloc(i64 %n, i64 %align) {
  %big = icmp ugt i64 %n, 4294967295
  br i1 %big, label %no, label %yes
no:
  %r0 = call { i64, i64 } @rattle_made(ptr null)
  ret { i64, i64 } %r0
yes:
  %n32 = trunc i64 %n to i32
  %a32 = trunc i64 %align to i32
  %p = call ptr @rattle_narrow_alloc(i32 %n32, i32 %a32)
  %r1 = call { i64, i64 } @rattle_made(ptr %p)
  ret { i64, i64 } %r1
}

define internal { i64, i64 } @rattle_realloc(ptr %at, i64 %kept, i64 %n, i64 %align) {
  %big = icmp ugt i64 %n, 4294967295
  br i1 %big, label %no, label %yes
no:
  %r0 = call { i64, i64 } @rattle_made(ptr null)
  ret { i64, i64 } %r0
yes:
  %k32 = trunc i64 %kept to i32
  %n32 = trunc i64 %n to i32
  %a32 = trunc i64 %align to i32
  %p = call ptr @rattle_narrow_realloc(ptr %at, i32 %k32, i32 %n32, i32 %a32)
  %r1 = call { i64, i64 } @rattle_made(ptr %p)
  ret { i64, i64 } %r1
}
