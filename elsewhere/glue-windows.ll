; On Windows a struct of 16 bytes is returned in a place that the caller names.

define ptr @surf_call(ptr %said, ptr %a, i64 %b, ptr %c, i64 %d, ptr %e, i64 %f, ptr %g, i64 %h, ptr %i, i64 %j) {
  %told = call { i64, i8 } @surf_call_in(ptr %a, i64 %b, ptr %c, i64 %d, ptr %e, i64 %f, ptr %g, i64 %h, ptr %i, i64 %j)
  %size = extractvalue { i64, i8 } %told, 0
  %status = extractvalue { i64, i8 } %told, 1
  store i64 %size, ptr %said
  %behind = getelementptr i8, ptr %said, i64 8
  store i8 %status, ptr %behind
  ret ptr %said
}
