source_filename = "rattle"
target datalayout = "e-m:e-p270:32:32-p271:32:32-p272:64:64-i8:8:32-i16:16:32-i64:64-i128:128-n32:64-S128-Fn32"
target triple = "aarch64-unknown-linux-gnu"

declare void @llvm.memset.p0.i64(ptr writeonly captures(none), i8, i64, i1 immarg) #1
declare void @llvm.memmove.p0.p0.i64(ptr writeonly captures(none), ptr readonly captures(none), i64, i1 immarg) #1
declare void @llvm.trap() #1

attributes #0 = { nounwind "frame-pointer"="non-leaf" "probe-stack"="inline-asm" "stack-probe-size"="3072" "target-cpu"="generic" }
attributes #1 = { nocallback nofree nounwind willreturn }

!llvm.ident = !{!0}

!0 = !{!"rattle logic=0"}
!1 = !{}
!2 = !{i8 0, i8 2}
