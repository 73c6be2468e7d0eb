@static.0 = private unnamed_addr constant [8 x i8] c"Ab\22\5C\00\FFyz", align 4
@static.1 = private unnamed_addr constant [4 x i8] zeroinitializer, align 1

; The sum of so many bytes, as the kit writes a loop: locals in memory, and each number loaded from there.
define internal noundef i64 @"small::sum"(ptr noundef %a0, i64 noundef %a1) #0 {
start:
  %r0 = alloca i64, align 8
  %r1 = alloca i64, align 8
  %r2 = alloca ptr, align 8
  store i64 0, ptr %r0, align 8
  store i64 0, ptr %r1, align 8
  store ptr %a0, ptr %r2, align 8
  br label %loop.1

loop.1:                                           ; preds = %body.2, %start
  %r3 = load i64, ptr %r1, align 8, !noundef !1
  %r4 = icmp ult i64 %r3, %a1
  br i1 %r4, label %body.2, label %done.3

body.2:                                           ; preds = %loop.1
  %r5 = load ptr, ptr %r2, align 8, !noundef !1
  %r6 = getelementptr i8, ptr %r5, i64 %r3
  %r7 = load i8, ptr %r6, align 1, !noundef !1
  %r8 = zext i8 %r7 to i64
  %r9 = load i64, ptr %r0, align 8, !noundef !1
  %r10 = add i64 %r9, %r8
  store i64 %r10, ptr %r0, align 8
  %r11 = load i64, ptr %r1, align 8, !noundef !1
  %r12 = add i64 %r11, 1
  store i64 %r12, ptr %r1, align 8
  br label %loop.1

done.3:                                           ; preds = %loop.1
  %r13 = load i64, ptr %r0, align 8, !noundef !1
  ret i64 %r13
}

; The first half of a slice that stands in memory as a pair, and as a pair again.
define internal noundef { ptr, i64 } @"small::first_half"(ptr noundef %a0) #0 {
start:
  %r0 = alloca [16 x i8], align 8
  call void @llvm.memset.p0.i64(ptr %r0, i8 -1, i64 16, i1 false)
  %r1 = load { ptr, i64 }, ptr %a0, align 8
  %r2 = extractvalue { ptr, i64 } %r1, 0
  %r3 = extractvalue { ptr, i64 } %r1, 1
  %r4 = udiv i64 %r3, 2
  store ptr %r2, ptr %r0, align 8
  %r5 = getelementptr i8, ptr %r0, i64 8
  store i64 %r4, ptr %r5, align 8
  %r6 = load { ptr, i64 }, ptr %r0, align 8
  ret { ptr, i64 } %r6
}

; Which of three a byte is.
define internal noundef i8 @"small::Kind<#0123456789abcdef>::of"(i8 noundef %a0) #0 {
start:
  %r0 = alloca i8, align 1
  switch i8 %a0, label %other.3 [
    i8 -1, label %arm.1
    i8 7, label %arm.2
  ]

arm.1:                                            ; preds = %start
  store i8 1, ptr %r0, align 1
  br label %join.4

arm.2:                                            ; preds = %start
  store i8 2, ptr %r0, align 1
  br label %join.4

other.3:                                          ; preds = %start
  store i8 3, ptr %r0, align 1
  br label %join.4

join.4:                                           ; preds = %other.3, %arm.2, %arm.1
  %r1 = load i8, ptr %r0, align 1, !range !2, !noundef !1
  ret i8 %r1
}

; Another function of that name.
define internal noundef i8 @"small::Kind<#fedcba9876543210>::of"(i8 noundef %a0) #0 {
start:
  %r0 = trunc i8 %a0 to i1
  br i1 %r0, label %then.1, label %else.2

then.1:                                           ; preds = %start
  ret i8 9

else.2:                                           ; preds = %start
  %r1 = icmp eq i8 %a0, 2
  br i1 %r1, label %two.3, label %join.4

two.3:                                            ; preds = %else.2
  call void @llvm.trap()
  unreachable

join.4:                                           ; preds = %else.2
  ret i8 8
}

; A slice of C: NULL becomes another place. The result is the sum of its bytes, and 1,000 times that of its first half.
define noundef i64 @dfu_small_sum(ptr noundef %a0, i64 noundef %a1) #0 {
start:
  %r0 = alloca [16 x i8], align 8
  %r1 = icmp eq ptr %a0, null
  %r2 = zext i1 %r1 to i64
  %r3 = mul i64 %r2, 4096
  %r4 = getelementptr i8, ptr %a0, i64 %r3
  store ptr %r4, ptr %r0, align 8
  %r5 = getelementptr i8, ptr %r0, i64 8
  store i64 %a1, ptr %r5, align 8
  %r6 = load ptr, ptr %r0, align 1
  %r7 = getelementptr i8, ptr %r0, i64 8
  %r8 = load i64, ptr %r7, align 1
  %r9 = call i64 @"small::sum"(ptr %r6, i64 %r8)
  %r10 = call { ptr, i64 } @"small::first_half"(ptr %r0)
  %r11 = extractvalue { ptr, i64 } %r10, 0
  %r12 = extractvalue { ptr, i64 } %r10, 1
  %r13 = call i64 @"small::sum"(ptr %r11, i64 %r12)
  %r14 = mul i64 %r13, 1000
  %r15 = add i64 %r14, %r9
  ret i64 %r15
}

; Ten times the one kind of a byte and the other.
define noundef i32 @dfu_small_kinds(i32 noundef %a0) #0 {
start:
  %r0 = trunc i32 %a0 to i8
  %r1 = call i8 @"small::Kind<#0123456789abcdef>::of"(i8 %r0)
  %r2 = call i8 @"small::Kind<#fedcba9876543210>::of"(i8 %r0)
  %r3 = mul i8 %r1, 10
  %r4 = add i8 %r3, %r2
  %r5 = zext i8 %r4 to i32
  ret i32 %r5
}

; The 8 bytes of a pointer in memory, and those beside it: they are cleared, the pointer is stored, and its last byte of 8 counts.
define noundef i32 @dfu_small_pointer(ptr noundef %a0, ptr noundef %a1) #0 {
start:
  call void @llvm.memset.p0.i64(ptr %a0, i8 -1, i64 16, i1 false)
  store ptr %a1, ptr %a0, align 1
  %r0 = load ptr, ptr %a0, align 1
  %r1 = icmp ne ptr %r0, %a1
  %r2 = ptrtoaddr ptr %r0 to i64
  %r3 = load i64, ptr %a0, align 1
  %r4 = icmp ne i64 %r2, %r3
  %r5 = or i1 %r1, %r4
  %r6 = zext i1 %r5 to i32
  ret i32 %r6
}

; Bytes of the tables, by their place.
define noundef i32 @dfu_small_table(i64 noundef %a0) #0 {
start:
  %r0 = getelementptr i8, ptr @static.0, i64 %a0
  %r1 = load i8, ptr %r0, align 1, !noundef !1
  %r2 = load i8, ptr @static.1, align 1
  %r3 = or i8 %r1, %r2
  %r4 = zext i8 %r3 to i32
  ret i32 %r4
}

; Bytes that move within one array, on and back.
define noundef i32 @dfu_small_move(ptr noundef %a0, i64 noundef %a1) #0 {
start:
  %r0 = getelementptr i8, ptr %a0, i64 1
  call void @llvm.memmove.p0.p0.i64(ptr %r0, ptr %a0, i64 %a1, i1 false)
  %r1 = getelementptr i8, ptr %r0, i64 -1
  %r2 = getelementptr i8, ptr %r1, i64 2
  call void @llvm.memmove.p0.p0.i64(ptr %r1, ptr %r2, i64 2, i1 false)
  call void @llvm.memmove.p0.p0.i64(ptr %r1, ptr %r2, i64 0, i1 false)
  ret i32 0
}
