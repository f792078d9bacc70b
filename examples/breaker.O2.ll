; ModuleID = 'breaker.c'
source_filename = "breaker.c"
target datalayout = "e-m:e-p270:32:32-p271:32:32-p272:64:64-i64:64-f80:128-n8:16:32:64-S128"
target triple = "x86_64-pc-linux-gnu"

%struct.span = type { i32, i32 }

; Function Attrs: nofree norecurse nosync nounwind readonly uwtable
define dso_local i32 @characters(i8* nocapture noundef readonly %0, i64 %1) local_unnamed_addr #0 {
  %3 = trunc i64 %1 to i32
  %4 = lshr i64 %1, 32
  %5 = trunc i64 %4 to i32
  %6 = icmp ult i32 %3, %5
  br i1 %6, label %7, label %9

7:                                                ; preds = %2
  %8 = and i64 %1, 4294967295
  br label %11

9:                                                ; preds = %11, %2
  %10 = phi i32 [ 0, %2 ], [ %19, %11 ]
  ret i32 %10

11:                                               ; preds = %7, %11
  %12 = phi i64 [ %8, %7 ], [ %20, %11 ]
  %13 = phi i32 [ 0, %7 ], [ %19, %11 ]
  %14 = getelementptr inbounds i8, i8* %0, i64 %12
  %15 = load i8, i8* %14, align 1, !tbaa !5
  %16 = and i8 %15, -64
  %17 = icmp ne i8 %16, -128
  %18 = zext i1 %17 to i32
  %19 = add i32 %13, %18
  %20 = add nuw nsw i64 %12, 1
  %21 = icmp eq i64 %20, %4
  br i1 %21, label %9, label %11, !llvm.loop !8
}

; Function Attrs: nofree norecurse nosync nounwind readonly uwtable
define dso_local i32 @line_end(i8* nocapture noundef readonly %0, i32 noundef %1, i32 noundef %2, i32 noundef %3) local_unnamed_addr #0 {
  %5 = icmp ult i32 %2, %1
  br i1 %5, label %6, label %40

6:                                                ; preds = %4
  %7 = zext i32 %2 to i64
  br label %8

8:                                                ; preds = %6, %34
  %9 = phi i64 [ %7, %6 ], [ %37, %34 ]
  %10 = phi i32 [ %2, %6 ], [ %35, %34 ]
  %11 = phi i32 [ 0, %6 ], [ %36, %34 ]
  %12 = getelementptr inbounds i8, i8* %0, i64 %9
  %13 = load i8, i8* %12, align 1, !tbaa !5
  %14 = icmp eq i8 %13, 32
  br i1 %14, label %15, label %23

15:                                               ; preds = %8
  %16 = trunc i64 %9 to i32
  %17 = add nuw i64 %9, 4294967295
  %18 = and i64 %17, 4294967295
  %19 = getelementptr inbounds i8, i8* %0, i64 %18
  %20 = load i8, i8* %19, align 1, !tbaa !5
  %21 = icmp eq i8 %20, 32
  %22 = select i1 %21, i32 %10, i32 %16
  br label %26

23:                                               ; preds = %8
  %24 = and i8 %13, -64
  %25 = icmp eq i8 %24, -128
  br i1 %25, label %34, label %26

26:                                               ; preds = %15, %23
  %27 = phi i32 [ %22, %15 ], [ %10, %23 ]
  %28 = add i32 %11, 1
  %29 = icmp eq i32 %11, %3
  br i1 %29, label %30, label %34

30:                                               ; preds = %26
  %31 = trunc i64 %9 to i32
  %32 = icmp ugt i32 %27, %2
  %33 = select i1 %32, i32 %27, i32 %31
  br label %40

34:                                               ; preds = %23, %26
  %35 = phi i32 [ %27, %26 ], [ %10, %23 ]
  %36 = phi i32 [ %28, %26 ], [ %11, %23 ]
  %37 = add nuw nsw i64 %9, 1
  %38 = trunc i64 %37 to i32
  %39 = icmp eq i32 %38, %1
  br i1 %39, label %40, label %8, !llvm.loop !10

40:                                               ; preds = %34, %4, %30
  %41 = phi i32 [ %33, %30 ], [ %1, %4 ], [ %1, %34 ]
  ret i32 %41
}

; Function Attrs: nofree norecurse nosync nounwind uwtable
define dso_local i32 @break_lines(i8* nocapture noundef readonly %0, i32 noundef %1, i32 noundef %2, %struct.span* nocapture noundef writeonly %3, i32 noundef %4) local_unnamed_addr #1 {
  %6 = icmp ne i32 %2, 0
  %7 = icmp ne i32 %4, 0
  %8 = and i1 %6, %7
  br i1 %8, label %9, label %75

9:                                                ; preds = %5
  %10 = zext i32 %4 to i64
  br label %11

11:                                               ; preds = %9, %68
  %12 = phi i64 [ 0, %9 ], [ %71, %68 ]
  %13 = phi i32 [ 0, %9 ], [ %69, %68 ]
  %14 = icmp ult i32 %13, %1
  br i1 %14, label %15, label %28

15:                                               ; preds = %11
  %16 = zext i32 %13 to i64
  br label %17

17:                                               ; preds = %15, %22
  %18 = phi i64 [ %16, %15 ], [ %23, %22 ]
  %19 = getelementptr inbounds i8, i8* %0, i64 %18
  %20 = load i8, i8* %19, align 1, !tbaa !5
  %21 = icmp eq i8 %20, 32
  br i1 %21, label %22, label %32

22:                                               ; preds = %17
  %23 = add nuw nsw i64 %18, 1
  %24 = trunc i64 %23 to i32
  %25 = icmp eq i32 %24, %1
  br i1 %25, label %26, label %17, !llvm.loop !11

26:                                               ; preds = %22
  %27 = trunc i64 %12 to i32
  br label %75

28:                                               ; preds = %11
  %29 = icmp eq i32 %13, %1
  br i1 %29, label %73, label %30

30:                                               ; preds = %28
  %31 = getelementptr inbounds %struct.span, %struct.span* %3, i64 %12, i32 0
  store i32 %13, i32* %31, align 4, !tbaa !12
  br label %68

32:                                               ; preds = %17
  %33 = trunc i64 %18 to i32
  %34 = getelementptr inbounds %struct.span, %struct.span* %3, i64 %12, i32 0
  store i32 %33, i32* %34, align 4, !tbaa !12
  %35 = and i64 %18, 4294967295
  br label %36

36:                                               ; preds = %62, %32
  %37 = phi i64 [ %35, %32 ], [ %65, %62 ]
  %38 = phi i32 [ %33, %32 ], [ %63, %62 ]
  %39 = phi i32 [ 0, %32 ], [ %64, %62 ]
  %40 = getelementptr inbounds i8, i8* %0, i64 %37
  %41 = load i8, i8* %40, align 1, !tbaa !5
  %42 = icmp eq i8 %41, 32
  br i1 %42, label %43, label %51

43:                                               ; preds = %36
  %44 = trunc i64 %37 to i32
  %45 = add nuw nsw i64 %37, 4294967295
  %46 = and i64 %45, 4294967295
  %47 = getelementptr inbounds i8, i8* %0, i64 %46
  %48 = load i8, i8* %47, align 1, !tbaa !5
  %49 = icmp eq i8 %48, 32
  %50 = select i1 %49, i32 %38, i32 %44
  br label %54

51:                                               ; preds = %36
  %52 = and i8 %41, -64
  %53 = icmp eq i8 %52, -128
  br i1 %53, label %62, label %54

54:                                               ; preds = %51, %43
  %55 = phi i32 [ %50, %43 ], [ %38, %51 ]
  %56 = add i32 %39, 1
  %57 = icmp eq i32 %39, %2
  br i1 %57, label %58, label %62

58:                                               ; preds = %54
  %59 = trunc i64 %37 to i32
  %60 = icmp ugt i32 %55, %33
  %61 = select i1 %60, i32 %55, i32 %59
  br label %68

62:                                               ; preds = %54, %51
  %63 = phi i32 [ %55, %54 ], [ %38, %51 ]
  %64 = phi i32 [ %56, %54 ], [ %39, %51 ]
  %65 = add nuw nsw i64 %37, 1
  %66 = trunc i64 %65 to i32
  %67 = icmp eq i32 %66, %1
  br i1 %67, label %68, label %36, !llvm.loop !10

68:                                               ; preds = %62, %30, %58
  %69 = phi i32 [ %61, %58 ], [ %1, %30 ], [ %1, %62 ]
  %70 = getelementptr inbounds %struct.span, %struct.span* %3, i64 %12, i32 1
  store i32 %69, i32* %70, align 4, !tbaa !15
  %71 = add nuw nsw i64 %12, 1
  %72 = icmp eq i64 %71, %10
  br i1 %72, label %75, label %11, !llvm.loop !16

73:                                               ; preds = %28
  %74 = trunc i64 %12 to i32
  br label %75

75:                                               ; preds = %68, %73, %26, %5
  %76 = phi i32 [ 0, %5 ], [ %27, %26 ], [ %74, %73 ], [ %4, %68 ]
  ret i32 %76
}

attributes #0 = { nofree norecurse nosync nounwind readonly uwtable "frame-pointer"="none" "min-legal-vector-width"="0" "no-trapping-math"="true" "stack-protector-buffer-size"="8" "target-cpu"="x86-64" "target-features"="+cx8,+fxsr,+mmx,+sse,+sse2,+x87" "tune-cpu"="generic" }
attributes #1 = { nofree norecurse nosync nounwind uwtable "frame-pointer"="none" "min-legal-vector-width"="0" "no-trapping-math"="true" "stack-protector-buffer-size"="8" "target-cpu"="x86-64" "target-features"="+cx8,+fxsr,+mmx,+sse,+sse2,+x87" "tune-cpu"="generic" }

!llvm.module.flags = !{!0, !1, !2, !3}
!llvm.ident = !{!4}

!0 = !{i32 1, !"wchar_size", i32 4}
!1 = !{i32 7, !"PIC Level", i32 2}
!2 = !{i32 7, !"PIE Level", i32 2}
!3 = !{i32 7, !"uwtable", i32 1}
!4 = !{!"Debian clang version 14.0.6"}
!5 = !{!6, !6, i64 0}
!6 = !{!"omnipotent char", !7, i64 0}
!7 = !{!"Simple C/C++ TBAA"}
!8 = distinct !{!8, !9}
!9 = !{!"llvm.loop.unroll.disable"}
!10 = distinct !{!10, !9}
!11 = distinct !{!11, !9}
!12 = !{!13, !14, i64 0}
!13 = !{!"span", !14, i64 0, !14, i64 4}
!14 = !{!"int", !6, i64 0}
!15 = !{!13, !14, i64 4}
!16 = distinct !{!16, !9}
