; What stands between the module and the C library: memory as malloc gives it. Memory that can't be had is told by a 0
; in front, as the kit's own functions of these names tell it.

@surf_nothing = private global i8 0, align 16
declare ptr @malloc(i64)
declare ptr @realloc(ptr, i64)
declare void @free(ptr)

define internal { i64, i64 } @surf_given(ptr %at) {
  %is = icmp ne ptr %at, null
  %place = select i1 %is, ptr %at, ptr @surf_nothing
  %flag = zext i1 %is to i64
  %number = ptrtoint ptr %place to i64
  %half = insertvalue { i64, i64 } undef, i64 %flag, 0
  %whole = insertvalue { i64, i64 } %half, i64 %number, 1
  ret { i64, i64 } %whole
}

define internal { i64, i64 } @rattle_alloc(i64 %size, i64 %alignment) {
  %is = icmp eq i64 %size, 0
  %some = select i1 %is, i64 %alignment, i64 %size
  %at = call ptr @malloc(i64 %some)
  %given = call { i64, i64 } @surf_given(ptr %at)
  ret { i64, i64 } %given
}

define internal { i64, i64 } @rattle_realloc(ptr %old, i64 %had, i64 %size, i64 %alignment) {
  %is = icmp eq i64 %size, 0
  %some = select i1 %is, i64 %alignment, i64 %size
  %at = call ptr @realloc(ptr %old, i64 %some)
  %given = call { i64, i64 } @surf_given(ptr %at)
  ret { i64, i64 } %given
}

define internal void @rattle_dealloc(ptr %at) {
  call void @free(ptr %at)
  ret void
}
