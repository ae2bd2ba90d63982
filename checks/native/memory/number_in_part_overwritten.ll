define i64 @f() {
  %slot = alloca i64, align 8
  store i64 -1, ptr %slot, align 8
  %at = getelementptr inbounds i8, ptr %slot, i64 4
  store i16 513, ptr %at, align 2
  %value = load i64, ptr %slot, align 8
  ret i64 %value
}
