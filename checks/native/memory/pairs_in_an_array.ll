; An index into an array of structures, and from there back by a negative one.
define i32 @f() {
  %pairs = alloca [3 x { i16, i32 }], align 4
  %last = getelementptr inbounds [3 x { i16, i32 }], ptr %pairs, i64 0, i64 2, i32 1
  store i32 55, ptr %last, align 4
  %end = getelementptr inbounds [3 x { i16, i32 }], ptr %pairs, i64 1
  %back = getelementptr inbounds i32, ptr %end, i64 -1
  %value = load i32, ptr %back, align 4
  ret i32 %value
}
